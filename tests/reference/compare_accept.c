/* accept: many proposals for each file, files and proposals that are refused, and either in the other's place. */
#include "compare.h"

#include <stdlib.h>
#include <string.h>

static const struct bytes *proposed; /* for the file that is compared */

/* The file that most proposals are for, and its trimmed text. */
static struct { const struct bytes *of; struct bytes text; } trimmed;

/* Where both are accepted files: */
static struct {
    unsigned long done, not_ours;        /* accepted; and not what trimming gives */
    unsigned long decision, obligations; /* 17: another decision, other obligations alone */
    unsigned long other_order;           /* 17: the same obligations in another order */
    unsigned long late;                  /* 17: with a request that no byte can hold */
    unsigned long needless;              /* 17: in a proposal that has a needless rule too */
    unsigned long next, not_next;        /* 18: with the rule that trimming strikes next, with another */
    unsigned long needed;                /* 18: with a rule that the original needs */
} answers;

/* 16 by the kind of line; of these, lines that the original has elsewhere, that it has in other letter case, and beyond its
 * end; and with 0. */
static struct { unsigned long attribute, set, obligation, rule, elsewhere, other_case, beyond, none; } lines;

/* Where they are not; both with other answers. */
static struct { unsigned long original, proposal, both; } refused;

/* To try every rule on every request, many times. */
static int takes_long(const struct policy *policy)
{
    return policy->space * policy->elements > 5000;
}

static struct answer by_reference(const uint8_t *file, size_t length, uint8_t *out, size_t room)
{
    (void)out, (void)room; /* nothing is lent */
    return ref_accept(file, length, proposed->bytes, proposed->length);
}

/* A proposal that the file starts with may lie in the same memory. */
static jogimaduve_answer by_library(const uint8_t *file, size_t length, uint8_t *out, size_t room)
{
    uint8_t *copy = exactly(proposed->bytes, proposed->length);
    int starts_so = proposed->length <= length && memcmp(proposed->bytes, file, proposed->length) == 0;

    (void)out, (void)room;
    jogimaduve_answer answer = jogimaduve_accept(file, length, starts_so && one_in(2) ? file : copy, proposed->length);
    if (memcmp(copy, proposed->bytes, proposed->length) != 0)
        answer.number = UINT32_MAX; /* no answer of the reference: the proposal was written to */
    free(copy);
    return answer;
}

/* Line `number` of an accepted file, or what is behind its last line. */
static struct slice line_of(const struct bytes *file, uint32_t number)
{
    size_t start = 0, end = 0;

    for (; number > 0; number--)
        for (start = end; end < file->length && file->bytes[end++] != '\n';)
            ;
    return (struct slice){file->bytes + start, end - start};
}

static int same(struct slice one, struct slice other)
{
    return one.length == other.length && memcmp(one.bytes, other.bytes, one.length) == 0;
}

static struct slice whole(const struct bytes *file)
{
    return (struct slice){file->bytes, file->length};
}

static void count_line(const struct bytes *original, const struct bytes *proposal, struct slice line)
{
    struct slice other;
    char letter = (char)line.bytes[0];
    int elsewhere = 0, other_case = 0;

    for (uint32_t number = 1; (other = line_of(original, number)).length > 0; number++) {
        elsewhere |= same(line, other);
        other_case |= equal_names(line, other) && !same(line, other);
    }
    lines.attribute += letter == 'A' || letter == 'M';
    lines.set += letter == 'S' || letter == 'P';
    lines.obligation += letter == 'O';
    lines.rule += letter == 'R';
    lines.elsewhere += (unsigned long)elsewhere;
    lines.other_case += (unsigned long)other_case;
    lines.beyond += proposal->length > original->length
        && memcmp(proposal->bytes, original->bytes, original->length) == 0;
}

/* Whether each name of one is among those of the other. */
static int has_names(const struct outcome *one, const struct outcome *other)
{
    for (size_t start = 0, end = 0; start < one->length; start = end) {
        int found = 0;
        while (one->obligations[end++] != '\n')
            ;
        for (size_t at = 0; at + (end - start) <= other->length; at++)
            found |= (at == 0 || other->obligations[at - 1] == '\n')
                && memcmp(one->obligations + start, other->obligations + at, end - start) == 0;
        if (!found)
            return 0;
    }
    return 1;
}

static struct outcome outcomes[SPACE]; /* of the proposal */

static void count_request(const struct policy *original, struct policy *proposal, int request)
{
    unsigned held[ATTRIBUTES];
    struct outcome one, other;

    values_of(original, request, held);
    find_outcome(original, held, &one);
    find_outcome(proposal, held, &other);
    answers.decision += one.decision != other.decision;
    answers.late += request > UINT8_MAX;
    if (one.decision == other.decision) {
        answers.obligations++;
        answers.other_order += one.length == other.length && has_names(&one, &other);
    }
    if (takes_long(proposal))
        return;
    find_outcomes(proposal, outcomes);
    answers.needless += next_needless(proposal, outcomes) >= 0;
}

/* Every request gets the same from both. */
static void count_rule(struct policy *original, struct policy *proposal, struct slice line)
{
    if (takes_long(original))
        return;
    find_outcomes(proposal, outcomes);
    int is_next = same(proposal->element[next_needless(proposal, outcomes)].line, line);
    answers.next += is_next;
    answers.not_next += !is_next;
    for (int place = 0; place < original->elements; place++)
        if (same(original->element[place].line, line))
            answers.needed += first_change(original, place, outcomes) < original->space;
}

static void count_refused(struct answer original, struct answer proposal)
{
    refused.original += original.number != 0;
    refused.proposal += original.number == 0;
    refused.both += original.number != 0 && proposal.number != 0
        && (original.number != proposal.number || original.second != proposal.second);
}

static void count_answer(const struct bytes *original, const struct bytes *proposal, struct answer answer)
{
    static struct policy one, other;

    if (answer.number == 0) {
        answers.done++;
        answers.not_ours += original == trimmed.of && !same(whole(proposal), whole(&trimmed.text));
        return;
    }
    if (answer.number == 16) {
        lines.none += answer.second == 0;
        if (answer.second > 0)
            count_line(original, proposal, line_of(proposal, answer.second));
        return;
    }
    struct answer first = read_policy(original->bytes, original->length, &one);
    struct answer second = read_policy(proposal->bytes, proposal->length, &other);
    if (answer.number == 17)
        count_request(&one, &other, (int)answer.second);
    else if (answer.number == 18)
        count_rule(&one, &other, line_of(proposal, answer.second));
    else
        count_refused(first, second);
}

static struct answer compare_proposal(const struct bytes *original, const struct bytes *proposal)
{
    unsigned long before = differences;

    proposed = proposal;
    struct answer answer = compare_rooms("accept", original, 0, 0, by_reference, by_library);
    count_answer(original, proposal, answer);
    if (differences > before)
        show_bytes("proposal", proposal->bytes, proposal->length);
    return answer;
}

/* Each in the other's place, and one of them or both damaged, which may leave a good file. */
static void compare_damaged(const struct bytes *original, const struct bytes *proposal)
{
    static struct bytes one, other;

    compare_proposal(proposal, original);
    one = *original;
    other = *proposal;
    damage(&one);
    damage(&other);
    compare_proposal(&one, proposal);
    compare_proposal(original, &other);
    compare_proposal(&one, &other);
}

/* It must be accepted, of every file. */
static void compare_trimmed(const struct bytes *file, struct original *original)
{
    make_trimmed(&trimmed.text, original);
    trimmed.of = file;
    struct answer answer = compare_proposal(file, &trimmed.text);
    if (answer.number != 0)
        difference("the trimmed text", (struct answer){0, 0}, (jogimaduve_answer){answer.number, answer.second}, file);
}

void compare_accept(const struct bytes *file, const struct policy *policy, int accepted)
{
    static struct original original;
    static struct bytes proposal;

    if (accepted && takes_long(policy) && !one_in(8))
        return;
    compare_proposal(file, file);
    if (!accepted) {
        make_small_file(&proposal);
        compare_damaged(file, &proposal);
        return;
    }
    take_original(&original, file);
    compare_trimmed(file, &original);
    for (int i = takes_long(policy) ? 1 : 3; i > 0; i--) {
        leave_out_rules(&proposal, &original);
        compare_proposal(file, &proposal);
        change_proposal(&proposal);
        compare_proposal(file, &proposal);
    }
    if (one_in(4))
        compare_damaged(file, &proposal);
    trimmed.of = NULL;
}

void compare_sparse_file(void)
{
    static struct bytes file;
    static struct policy policy;

    make_sparse_file(&file);
    compare_accept(&file, &policy, read_policy(file.bytes, file.length, &policy).number == 0);
}

int proposals_seen(void)
{
    const struct seen seen[] = {
        {"accepted", answers.done}, {"not as trimmed here", answers.not_ours},
        {"16 with an attribute's line", lines.attribute}, {"a set's or policy's", lines.set},
        {"an obligation's", lines.obligation}, {"a rule's", lines.rule}, {"one that stands elsewhere", lines.elsewhere},
        {"one in other case", lines.other_case}, {"beyond the end", lines.beyond}, {"16 with 0", lines.none},
        {"17 for a decision", answers.decision}, {"for obligations alone", answers.obligations},
        {"for their order", answers.other_order}, {"with a request over 255", answers.late},
        {"with a needless rule too", answers.needless}, {"18 with the next rule to strike", answers.next},
        {"with another", answers.not_next}, {"with one that the original needs", answers.needed},
        {"original refused", refused.original}, {"proposal refused", refused.proposal}, {"both", refused.both},
    };

    return seen_often("proposals", seen, sizeof seen / sizeof *seen);
}
