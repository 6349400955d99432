/* Small files in which obligations count, and how often each of the cases came up that a wrong program would miss. */
#include "compare.h"

#include <string.h>

/* Requests: */
static struct {
    unsigned long unasked;       /* a child would give one, but is behind the one that settles the answer */
    unsigned long indeterminate; /* the same, and an indeterminate child settles it */
    unsigned long below_other;   /* an element would give one, but the one above it gives another decision */
    unsigned long other_word;    /* an element gives one of two */
    unsigned long undecided;     /* the first element has some, but the decision is none of theirs */
    unsigned long twice;         /* a name comes twice */
} came_up;

/* Rules: */
static struct {
    unsigned long alone;        /* kept for obligations alone */
    unsigned long earlier;      /* kept, and obligations change at an earlier request than a decision */
    unsigned long same_length;  /* kept, and as many bytes come without it */
    unsigned long but_for_case; /* kept, and the same come without it but for letter case */
    unsigned long elsewhere;    /* struck, and without it other elements give the same bytes */
} rules;

static int has_one_for(const struct element *element, enum decision decision)
{
    for (int i = 0; i < element->obligations; i++)
        if ((element->obligation[i].word == EFFECT_PERMIT) == (decision == PERMIT))
            return 1;
    return 0;
}

/* An element that was asked and gave another decision than the one wanted, whose element above gave that. */
static void count_below_other(const struct policy *policy, int place, const unsigned held[ATTRIBUTES], enum decision decision)
{
    int asked[ELEMENTS], count = policy->element[place].kind == 'R' ? 0 : asked_by(policy, place, held, asked);

    for (int i = 0; i < count; i++)
        came_up.below_other += gives(policy, asked[i], held) == decision && has_one_for(&policy->element[asked[i]], decision);
}

/* Children behind the last one that was asked. */
static void count_unasked(const struct policy *policy, int place, int last, const unsigned held[ATTRIBUTES],
                          enum decision decision)
{
    const struct element *element = &policy->element[place];

    for (int i = 0; i < element->children; i++) {
        int child = element->child[i];
        if (child <= last || gives(policy, child, held) != decision || !has_one_for(&policy->element[child], decision))
            continue;
        came_up.unasked++;
        came_up.indeterminate += gives(policy, last, held) == INDETERMINATE;
    }
}

/* An element that was asked and gave the decision, as all above it did; gives the elements whose obligations come with it,
 * as bits. */
static uint64_t count_element(const struct policy *policy, int place, const unsigned held[ATTRIBUTES], enum decision decision)
{
    const struct element *element = &policy->element[place];
    uint64_t given = has_one_for(element, decision) ? (uint64_t)1 << place : 0;
    int asked[ELEMENTS], count;

    if (element->kind == 'R')
        return 0;
    came_up.other_word += given != 0 && has_one_for(element, decision == PERMIT ? DENY : PERMIT);
    count = asked_by(policy, place, held, asked);
    for (int i = 0; i < count; i++)
        if (gives(policy, asked[i], held) == decision)
            given |= count_element(policy, asked[i], held, decision);
        else
            count_below_other(policy, asked[i], held, decision);
    if (count > 0 && element->word != ONLY_ONE_APPLICABLE)
        count_unasked(policy, place, asked[count - 1], held, decision);
    return given;
}

static int has_name_twice(const struct outcome *outcome)
{
    const char *text = (const char *)outcome->obligations;

    for (size_t one = 0, end; one < outcome->length; one = end) {
        end = one + strcspn(text + one, "\n") + 1;
        for (size_t other = end; other < outcome->length; other += strcspn(text + other, "\n") + 1)
            if (outcome->length - other >= end - one && memcmp(text + one, text + other, end - one) == 0)
                return 1;
    }
    return 0;
}

/* The elements whose obligations come with a request's decision. */
static uint64_t count_request(const struct policy *policy, const unsigned held[ATTRIBUTES])
{
    static struct outcome outcome;

    find_outcome(policy, held, &outcome);
    came_up.twice += has_name_twice(&outcome);
    if (outcome.decision == PERMIT || outcome.decision == DENY)
        return count_element(policy, 0, held, outcome.decision);
    came_up.undecided += policy->element[0].obligations > 0 && matches(policy, 0, held);
    return 0;
}

int first_other_decision(struct policy *policy, int rule)
{
    unsigned held[ATTRIBUTES];
    int request;

    for (request = 0; request < policy->space; request++) {
        values_of(policy, request, held);
        enum decision with = gives(policy, 0, held);
        policy->element[rule].struck = 1;
        enum decision without = gives(policy, 0, held);
        policy->element[rule].struck = 0;
        if (with != without)
            break;
    }
    return request;
}

/* A rule that was kept: with and without it, in what is left. */
static void count_kept(struct policy *policy, int rule, const struct outcome outcomes[SPACE])
{
    static struct outcome without;
    unsigned held[ATTRIBUTES];
    int first = first_change(policy, rule, outcomes), request = first_other_decision(policy, rule);

    policy->element[rule].struck = 1;
    values_of(policy, first, held);
    find_outcome(policy, held, &without);
    policy->element[rule].struck = 0;
    rules.alone += request == policy->space;
    rules.earlier += request > first && request < policy->space;
    if (request > first && outcomes[first].length == without.length) {
        rules.same_length++;
        rules.but_for_case += equal_names((struct slice){outcomes[first].obligations, without.length},
                                          (struct slice){without.obligations, without.length});
    }
}

/* The rules struck, once more, one after the other. */
static void count_struck(struct policy *policy, const int order[ELEMENTS], int strikes)
{
    unsigned held[ATTRIBUTES];

    for (int i = 0; i < strikes; i++)
        policy->element[order[i]].struck = 0;
    for (int i = 0; i < strikes; i++) {
        int elsewhere = 0;
        for (int request = 0; request < policy->space; request++) {
            values_of(policy, request, held);
            policy->element[order[i]].struck = 0;
            uint64_t with = count_request(policy, held);
            policy->element[order[i]].struck = 1;
            elsewhere |= count_request(policy, held) != with;
        }
        rules.elsewhere += (unsigned long)elsewhere;
    }
}

static void count_rules(struct policy *policy)
{
    static struct outcome outcomes[SPACE];
    int order[ELEMENTS];

    find_outcomes(policy, outcomes);
    int strikes = strike_needless(policy, outcomes, order);
    for (int place = 0; place < policy->elements; place++)
        if (policy->element[place].kind == 'R' && !policy->element[place].struck)
            count_kept(policy, place, outcomes);
    count_struck(policy, order, strikes);
}

void compare_obliged_files(void)
{
    static struct bytes file;
    static struct policy policy;

    make_obliged_file(&file);
    if (read_policy(file.bytes, file.length, &policy).number != 0)
        return;
    for (int request = 0; request < policy.space; request++)
        compare_request(&file, &policy, request);
    compare_rooms("trim", &file, 1, FILE_BYTES, ref_trim, jogimaduve_trim);
    compare_rooms("report", &file, 1, 4096, ref_report, jogimaduve_report);
    compare_strikes(&file, &policy);
    if (one_in(4))
        compare_held(&file);
    if (one_in(2))
        compare_accept(&file, &policy, 1);
    count_rules(&policy);
}

int obligations_seen(void)
{
    const struct seen seen[] = {
        {"not asked", came_up.unasked}, {"not asked behind an indeterminate", came_up.indeterminate},
        {"below another decision", came_up.below_other}, {"of the other word", came_up.other_word},
        {"neither permit nor deny", came_up.undecided}, {"a name twice", came_up.twice},
        {"rules kept for them alone", rules.alone}, {"before a decision", rules.earlier},
        {"as many bytes", rules.same_length}, {"the same but for case", rules.but_for_case},
        {"rules struck, elsewhere the same", rules.elsewhere},
    };

    return seen_often("obligations", seen, sizeof seen / sizeof *seen);
}
