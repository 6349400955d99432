/* C-19: whether a proposal is the original without some of its rules, decides alike and holds no needless rule. */
#include "reference.h"

#include <string.h>

/* The next line of what is left of an accepted file, newline included. */
static struct slice take_line(struct slice *left)
{
    struct slice line = {left->bytes, 0};

    while (line.bytes[line.length++] != '\n')
        ;
    left->bytes += line.length;
    left->length -= line.length;
    return line;
}

static int is_rule(struct slice line)
{
    return line.bytes[0] == 'R'; /* no other line of an accepted file starts so */
}

static int same_line(struct slice one, struct slice other)
{
    return one.length == other.length && memcmp(one.bytes, other.bytes, one.length) == 0;
}

/* Whether a line is the next one of what is left of the original, rule lines skipped as needed. Takes it, and those. */
static int is_next(struct slice line, struct slice *original)
{
    while (original->length > 0) {
        struct slice next = take_line(original);
        if (same_line(line, next))
            return 1;
        if (!is_rule(next))
            return 0;
    }
    return 0; /* it is beyond the end */
}

static struct answer match_lines(struct slice original, struct slice proposal)
{
    for (uint32_t number = 1; proposal.length > 0; number++)
        if (!is_next(take_line(&proposal), &original))
            return (struct answer){16, number};
    while (original.length > 0)
        if (!is_rule(take_line(&original)))
            return (struct answer){16, 0};
    return (struct answer){0, 0};
}

/* The first request that gets another decision or other obligations; the space, which is that of both, if there is none. */
static int first_difference(const struct policy *original, const struct policy *proposal)
{
    struct outcome one, other;
    unsigned held[ATTRIBUTES];
    int request;

    for (request = 0; request < original->space; request++) {
        values_of(original, request, held);
        find_outcome(original, held, &one);
        find_outcome(proposal, held, &other);
        if (!same_outcome(&one, &other))
            break;
    }
    return request;
}

/* The topmost rule that is needless, each by itself in the whole policy, or -1. */
static int first_needless(struct policy *policy)
{
    static struct outcome outcomes[SPACE];

    find_outcomes(policy, outcomes);
    for (int place = 0; place < policy->elements; place++)
        if (policy->element[place].kind == 'R' && first_change(policy, place, outcomes) == policy->space)
            return place;
    return -1;
}

/* The number of the line that starts at a place of the file. */
static uint32_t line_number(const uint8_t *file, const uint8_t *start)
{
    uint32_t number = 1;

    for (; file < start; file++)
        number += *file == '\n';
    return number;
}

struct answer ref_accept(const uint8_t *original, size_t original_len, const uint8_t *proposal, size_t proposal_len)
{
    struct policy first, second;

    struct answer answer = read_policy(original, original_len, &first);
    if (answer.number == 0)
        answer = read_policy(proposal, proposal_len, &second);
    if (answer.number == 0)
        answer = match_lines((struct slice){original, original_len}, (struct slice){proposal, proposal_len});
    if (answer.number != 0)
        return answer;

    int request = first_difference(&first, &second);
    if (request < first.space)
        return (struct answer){17, (uint32_t)request};
    int rule = first_needless(&second);
    if (rule >= 0)
        return (struct answer){18, line_number(proposal, second.element[rule].line.bytes)};
    return (struct answer){0, 0};
}
