/* Obligations: which come with a decision, and for which rules they change where the decision doesn't. */
#include "plain_space.h"

#include <string.h>

/* Requests on which a child is the last to be asked. With only-one-applicable there is one child, or none. */
static uint64_t settled(unsigned word, struct gives child)
{
    switch (word) {
    case DENY_OVERRIDES: return child.deny | child.indeterminate;
    case PERMIT_OVERRIDES: return child.permit;
    case FIRST_APPLICABLE: return any(child);
    default: return 0;
    }
}

void plain_chain(const struct policy *policy, const struct block *block, struct chain *chain)
{
    struct gives root = block->gives[0];
    uint64_t open[ELEMENTS]; /* of the children: requests that no earlier one has settled */

    memset(chain->given, 0, policy->elements * sizeof *chain->given);
    for (uint64_t left = block->active; left != 0; left &= left - 1) {
        int place = lowest(left), parent = policy->element[place].parent;
        unsigned word = policy->element[place].word;
        struct gives gives = block->gives[place];

        if (policy->element[place].kind == 'R')
            continue;
        open[place] = word == ONLY_ONE_APPLICABLE ? ~block->matched_twice[place] : ~(uint64_t)0;
        if (place == 0) {
            chain->asked[0] = ~(uint64_t)0;
            chain->given[0] = root.permit | root.deny;
            continue;
        }
        chain->asked[place] = chain->asked[parent] & open[parent];
        chain->given[place] = chain->given[parent] & open[parent]
            & ((gives.permit & root.permit) | (gives.deny & root.deny));
        open[parent] &= ~settled(policy->element[parent].word, gives);
    }
}

void plain_start_obliged(struct obliged *obliged, const struct policy *policy)
{
    for (unsigned i = 0; i < policy->obligations; i++) {
        const struct obligation *one = &policy->obligation[i];
        unsigned earlier = 0;
        while (policy->obligation[earlier].length != one->length
               || memcmp(policy->obligation[earlier].label, one->label, one->length) != 0)
            earlier++;
        obliged->alike[i] = (uint8_t)earlier;
    }
}

/* Names that come with a request's decision, each as the first that is alike. */
static size_t names_of(const struct trimming *trimming, const struct policy *policy, const uint64_t given[ELEMENTS],
                       int request, unsigned word, uint8_t names[OBLIGATIONS * ELEMENTS])
{
    size_t count = 0;

    for (unsigned i = 0; i < policy->obligations; i++) {
        const struct obligation *one = &policy->obligation[i];
        names[count] = trimming->obliged.alike[i];
        count += one->word == word && (given[one->place] >> request & 1);
    }
    return count;
}

/* Requests with the same bits as one of them. */
static uint64_t like(uint64_t bits, int request) { return bits >> request & 1 ? bits : ~bits; }

/* Requests to which other elements with obligations give the decision. */
static uint64_t given_otherwise(const struct policy *policy, const uint64_t with[ELEMENTS],
                                const uint64_t without[ELEMENTS])
{
    uint64_t other = 0;

    for (unsigned i = 0; i < policy->obligations; i++) {
        unsigned place = policy->obligation[i].place;
        other |= with[place] ^ without[place];
    }
    return other;
}

/* Those that get their names from the same elements are done at once. */
unsigned plain_first_other_names(const struct trimming *trimming, const struct policy *policy, struct gives root,
                                 const uint64_t with[ELEMENTS], const uint64_t without[ELEMENTS], uint64_t requests)
{
    uint8_t one[OBLIGATIONS * ELEMENTS], other[OBLIGATIONS * ELEMENTS];

    requests &= given_otherwise(policy, with, without);
    while (requests != 0) {
        int request = lowest(requests);
        unsigned word = root.permit >> request & 1 ? EFFECT_PERMIT : EFFECT_DENY;
        size_t count = names_of(trimming, policy, with, request, word, one);
        if (names_of(trimming, policy, without, request, word, other) != count || memcmp(one, other, count) != 0)
            return (unsigned)request;
        uint64_t alike = word == EFFECT_PERMIT ? root.permit : root.deny;
        for (unsigned i = 0; i < policy->obligations; i++) {
            unsigned place = policy->obligation[i].place;
            alike &= like(with[place], request) & like(without[place], request);
        }
        requests &= ~alike;
    }
    return 64;
}

unsigned plain_first_other(const struct trimming *trimming, const struct policy *policy, unsigned number, int rule,
                           uint64_t requests)
{
    uint64_t applies[ELEMENTS];
    struct block block;
    struct chain chain;

    memcpy(applies, trimming->applies[number], policy->elements * sizeof *applies);
    applies[rule] = 0;
    block.active = trimming->active[number] & ~bit(rule);
    plain_evaluate(policy, &block, applies);
    plain_chain(policy, &block, &chain);
    return plain_first_other_names(trimming, policy, block.gives[0], trimming->obliged.given[number], chain.given,
                                   requests);
}

bool plain_needs_obligations(struct trimming *trimming, const struct policy *policy, int rule)
{
    for (unsigned i = 0; i < trimming->blocks; i++) {
        uint64_t perhaps = trimming->active[i] & bit(rule) ? trimming->obliged.perhaps[i][rule] : 0;
        if (perhaps != 0 && plain_first_other(trimming, policy, i, rule, perhaps) < 64) {
            trimming->obliged.needed[i] |= bit(rule);
            return true;
        }
    }
    return false;
}

unsigned plain_first_need(const struct trimming *trimming, const struct policy *policy, int rule)
{
    for (unsigned i = 0;; i++) {
        unsigned first = trimming->needed[i] & bit(rule) ? trimming->first[i][rule] : 64;
        if (policy->obligations > 0 && trimming->active[i] & bit(rule)) {
            uint64_t before = first < 64 ? bit((int)first) - 1 : ~(uint64_t)0;
            uint64_t perhaps = trimming->obliged.perhaps[i][rule] & before;
            unsigned other = perhaps == 0 ? 64 : plain_first_other(trimming, policy, i, rule, perhaps);
            if (other < first)
                first = other;
        }
        if (first < 64)
            return 64 * i + first;
    }
}
