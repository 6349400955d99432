/* Trimming: striking the needless rules, the last one first. */
#include "reference.h"

/* The first request whose decision changes without the rule, or whose obligations do; the space if there is none, so that
 * the rule is needless. */
int first_change(struct policy *policy, int rule, const struct outcome outcomes[SPACE])
{
    struct outcome outcome;
    unsigned held[ATTRIBUTES];
    int request;

    policy->element[rule].struck = 1;
    for (request = 0; request < policy->space; request++) {
        values_of(policy, request, held);
        find_outcome(policy, held, &outcome);
        if (!same_outcome(&outcome, &outcomes[request]))
            break;
    }
    policy->element[rule].struck = 0;
    return request;
}

/* The last rule that is needless in what is left, or -1. The outcomes are the file's: no strike of a needless rule changes
 * any, so they are those of what is left too. */
int next_needless(struct policy *policy, const struct outcome outcomes[SPACE])
{
    for (int place = policy->elements - 1; place >= 0; place--) {
        const struct element *element = &policy->element[place];
        if (element->kind == 'R' && !element->struck && first_change(policy, place, outcomes) == policy->space)
            return place;
    }
    return -1;
}

/* Strikes rules until none is needless; `order` gets their places, in the order struck. */
int strike_needless(struct policy *policy, const struct outcome outcomes[SPACE], int order[ELEMENTS])
{
    int strikes = 0;

    for (int place; (place = next_needless(policy, outcomes)) >= 0; order[strikes++] = place)
        policy->element[place].struck = 1;
    return strikes;
}

struct answer lend_left(const struct policy *policy, uint8_t *out, size_t room)
{
    struct text text = {NULL, 0, 0};

    put_bytes(&text, policy->attribute_lines.bytes, policy->attribute_lines.length);
    for (int place = 0; place < policy->elements; place++)
        if (!policy->element[place].struck)
            put_bytes(&text, policy->element[place].line.bytes, policy->element[place].line.length);
    return lend_text(&text, out, room);
}

struct answer ref_trim(const uint8_t *file, size_t len, uint8_t *out, size_t room)
{
    static struct outcome outcomes[SPACE];
    struct policy policy;
    int order[ELEMENTS];

    struct answer answer = read_policy(file, len, &policy);
    if (answer.number != 0)
        return answer;
    find_outcomes(&policy, outcomes);
    strike_needless(&policy, outcomes, order);
    return lend_left(&policy, out, room);
}
