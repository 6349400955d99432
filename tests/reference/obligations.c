/* C-16: obligations that come with a decision, and the outcome of a request, which is both. */
#include "reference.h"

#include <string.h>

uint32_t add_obligation(struct policy *policy, char before, struct slice name, enum word word)
{
    struct element *element = policy->elements > 0 ? &policy->element[policy->elements - 1] : NULL;
    int obligations = element == NULL ? 0 : element->obligations;

    if (!is_name(name))
        return 3;
    for (int i = 0; i < obligations; i++)
        if (equal_names(element->obligation[i].name, name))
            return 4;
    if ((before != 'P' && before != 'S' && before != 'O') || obligations == OBLIGATIONS)
        return 14;
    if (word != EFFECT_PERMIT && word != EFFECT_DENY)
        return 7;
    element->obligation[element->obligations++] = (struct obligation){name, word};
    return 0;
}

/* Whether a child that gives this is the last one to be asked. */
static int settles(enum word algorithm, enum decision child)
{
    switch (algorithm) {
    case DENY_OVERRIDES:
        return child == DENY || child == INDETERMINATE;
    case PERMIT_OVERRIDES:
        return child == PERMIT;
    default: /* first-applicable */
        return child != NOT_APPLICABLE;
    }
}

/* The children whose targets match. */
static int matching_below(const struct policy *policy, int place, const unsigned held[ATTRIBUTES],
                          int matching[ELEMENTS])
{
    const struct element *element = &policy->element[place];
    int count = 0;

    for (int i = 0; i < element->children; i++)
        if (matches(policy, element->child[i], held))
            matching[count++] = element->child[i];
    return count;
}

/* The children that an element asks, in order. A struck rule is none. */
int asked_by(const struct policy *policy, int place, const unsigned held[ATTRIBUTES], int asked[ELEMENTS])
{
    const struct element *element = &policy->element[place];
    int count = 0;

    if (element->word == ONLY_ONE_APPLICABLE) {
        count = matching_below(policy, place, held, asked);
        return count == 1 ? 1 : 0; /* just a sole one */
    }
    for (int i = 0; i < element->children; i++) {
        int child = element->child[i];
        if (policy->element[child].struck)
            continue;
        asked[count++] = child;
        if (settles(element->word, gives(policy, child, held)))
            break;
    }
    return count;
}

static void put_name(struct outcome *outcome, struct slice name)
{
    memcpy(outcome->obligations + outcome->length, name.bytes, name.length);
    outcome->length += name.length;
    outcome->obligations[outcome->length++] = '\n';
}

/* Of an element that was asked and gave the decision, as those above it did, and of the elements below it. */
static void put_obligations(const struct policy *policy, int place, const unsigned held[ATTRIBUTES],
                            struct outcome *outcome)
{
    const struct element *element = &policy->element[place];
    enum word wanted = outcome->decision == PERMIT ? EFFECT_PERMIT : EFFECT_DENY;
    int asked[ELEMENTS], count;

    if (element->kind == 'R')
        return;
    for (int i = 0; i < element->obligations; i++)
        if (element->obligation[i].word == wanted)
            put_name(outcome, element->obligation[i].name);
    count = asked_by(policy, place, held, asked);
    for (int i = 0; i < count; i++)
        if (gives(policy, asked[i], held) == outcome->decision)
            put_obligations(policy, asked[i], held, outcome);
}

void find_outcome(const struct policy *policy, const unsigned held[ATTRIBUTES], struct outcome *outcome)
{
    outcome->decision = gives(policy, 0, held);
    outcome->length = 0;
    if (outcome->decision == PERMIT || outcome->decision == DENY)
        put_obligations(policy, 0, held, outcome);
}

/* Obligations are the same exactly if their bytes are. */
int same_outcome(const struct outcome *one, const struct outcome *other)
{
    return one->decision == other->decision && one->length == other->length
        && memcmp(one->obligations, other->obligations, one->length) == 0;
}

void find_outcomes(const struct policy *policy, struct outcome outcomes[SPACE])
{
    unsigned held[ATTRIBUTES];

    for (int request = 0; request < policy->space; request++) {
        values_of(policy, request, held);
        find_outcome(policy, held, &outcomes[request]);
    }
}
