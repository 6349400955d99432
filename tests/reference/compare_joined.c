/* What requests get of a joined text: what the word makes of the two files' decisions, each on its own attributes, with the
 * obligations of each file that was asked and gave the decision. */
#include "compare.h"

#include <string.h>

/* Requests: */
static struct {
    unsigned long both;         /* obligations of both files come */
    unsigned long second;       /* of the second alone */
    unsigned long unasked;      /* the second would give some, but is not asked */
    unsigned long other;        /* a file that is asked would give some, but the joined decision is another */
    unsigned long two_match;    /* indeterminate, since both match */
    unsigned long sole[2];      /* one file alone matches */
    unsigned long silent;       /* one file alone matches, and gives not-applicable */
    unsigned long none;         /* none matches */
    unsigned long denied;       /* denied for an indeterminate file */
    unsigned long undecided[2]; /* this file's indeterminate, under the other words */
    unsigned long decided[4][4];
} came_up;

/* A file of the two, and what the request holds of its own attributes. */
struct side { const struct policy *policy; unsigned held[ATTRIBUTES]; int matches, asked; struct outcome outcome; };

static int any(const struct side side[2], enum decision decision)
{
    return side[0].outcome.decision == decision || side[1].outcome.decision == decision;
}

/* The decision, and which files are asked. */
static enum decision decide_over(enum word word, struct side side[2])
{
    enum decision first = side[0].outcome.decision, second = side[1].outcome.decision;

    side[0].asked = side[1].asked = 1;
    switch (word) {
    case DENY_OVERRIDES:
        side[1].asked = first != DENY && first != INDETERMINATE;
        return any(side, DENY) || any(side, INDETERMINATE) ? DENY : any(side, PERMIT) ? PERMIT : NOT_APPLICABLE;
    case PERMIT_OVERRIDES:
        side[1].asked = first != PERMIT;
        return any(side, PERMIT) ? PERMIT : any(side, DENY) ? DENY : any(side, INDETERMINATE) ? INDETERMINATE
            : NOT_APPLICABLE;
    case FIRST_APPLICABLE:
        side[1].asked = first == NOT_APPLICABLE;
        return first == NOT_APPLICABLE ? second : first;
    default: /* only-one-applicable */
        side[0].asked = side[0].matches && !side[1].matches;
        side[1].asked = side[1].matches && !side[0].matches;
        if (side[0].matches && side[1].matches)
            return INDETERMINATE;
        return side[0].asked ? first : side[1].asked ? second : NOT_APPLICABLE;
    }
}

static void take_outcome(enum word word, struct side side[2], struct outcome *outcome)
{
    outcome->decision = decide_over(word, side);
    outcome->length = 0;
    for (int i = 0; i < 2; i++)
        if (side[i].asked && side[i].outcome.decision == outcome->decision) {
            memcpy(outcome->obligations + outcome->length, side[i].outcome.obligations, side[i].outcome.length);
            outcome->length += side[i].outcome.length;
        }
}

static void count_request(enum word word, const struct side side[2], const struct outcome *outcome)
{
    int given[2];

    for (int i = 0; i < 2; i++) {
        given[i] = side[i].asked && side[i].outcome.decision == outcome->decision && side[i].outcome.length > 0;
        came_up.other += side[i].asked && !given[i] && side[i].outcome.length > 0;
        came_up.undecided[i] += word != DENY_OVERRIDES && word != ONLY_ONE_APPLICABLE
            && side[i].outcome.decision == INDETERMINATE && outcome->decision == INDETERMINATE;
    }
    came_up.both += given[0] && given[1];
    came_up.second += !given[0] && given[1];
    came_up.unasked += !side[1].asked && side[1].outcome.length > 0;
    came_up.denied += word == DENY_OVERRIDES && any(side, INDETERMINATE) && !any(side, DENY);
    came_up.decided[word - DENY_OVERRIDES][outcome->decision]++;
    if (word != ONLY_ONE_APPLICABLE)
        return;
    came_up.two_match += side[0].matches && side[1].matches;
    came_up.none += !side[0].matches && !side[1].matches;
    for (int i = 0; i < 2; i++) {
        came_up.sole[i] += side[i].asked;
        came_up.silent += side[i].asked && outcome->decision == NOT_APPLICABLE;
    }
}

/* What the joined request holds of the file's own attributes. */
static void hold_own(struct side *side, const struct policy *joined, const unsigned held[ATTRIBUTES])
{
    for (int own = 0; own < side->policy->attributes; own++)
        for (int i = 0; i < joined->attributes; i++)
            if (equal_names(side->policy->attribute[own].name, joined->attribute[i].name))
                side->held[own] = held[i];
}

int compare_joined(const struct bytes *text, const struct policy *joined, const struct policy *first,
                   const struct policy *second)
{
    static struct bytes request;
    static struct side side[2];
    static struct outcome wanted, got;
    enum word word = joined->element[0].word;
    unsigned held[ATTRIBUTES];

    side[0].policy = first;
    side[1].policy = second;
    for (int number = 0; number < joined->space; number++) {
        values_of(joined, number, held);
        for (int i = 0; i < 2; i++) {
            hold_own(&side[i], joined, held);
            side[i].matches = matches(side[i].policy, 0, side[i].held);
            find_outcome(side[i].policy, side[i].held, &side[i].outcome);
        }
        take_outcome(word, side, &wanted);
        count_request(word, side, &wanted);
        make_request_of(&request, joined, number);
        jogimaduve_decision answer = jogimaduve_decide(text->bytes, text->length, request.bytes, request.length,
                                                       got.obligations, sizeof got.obligations);
        got.decision = (enum decision)answer.second;
        got.length = answer.length;
        if (answer.number != 0 || !same_outcome(&wanted, &got))
            return number;
    }
    return -1;
}

int joined_seen(void)
{
    const struct seen seen[] = {
        {"obligations of both files", came_up.both}, {"of the second alone", came_up.second},
        {"of a second that is not asked", came_up.unasked}, {"of a file that gives another decision", came_up.other},
        {"two files match", came_up.two_match}, {"the first alone", came_up.sole[0]}, {"the second", came_up.sole[1]},
        {"a sole one that says nothing", came_up.silent}, {"none", came_up.none},
        {"denied for an indeterminate", came_up.denied}, {"indeterminate by the first", came_up.undecided[0]},
        {"by the second", came_up.undecided[1]},
        {"deny-overrides permit", came_up.decided[0][0]}, {"deny", came_up.decided[0][1]},
        {"not-applicable", came_up.decided[0][2]}, /* never indeterminate */
        {"permit-overrides permit", came_up.decided[1][0]}, {"deny", came_up.decided[1][1]},
        {"not-applicable", came_up.decided[1][2]}, {"indeterminate", came_up.decided[1][3]},
        {"first-applicable permit", came_up.decided[2][0]}, {"deny", came_up.decided[2][1]},
        {"not-applicable", came_up.decided[2][2]}, {"indeterminate", came_up.decided[2][3]},
        {"only-one-applicable permit", came_up.decided[3][0]}, {"deny", came_up.decided[3][1]},
        {"not-applicable", came_up.decided[3][2]}, {"indeterminate", came_up.decided[3][3]},
    };

    return seen_often("requests of joined texts", seen, sizeof seen / sizeof *seen);
}
