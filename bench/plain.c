/* Deciding. */
#include "plain.h"
#include "plain_space.h"

#include <string.h>

/* Joins one more child to those behind it. */
static void ask(struct block *block, unsigned word, int parent, struct gives child, uint64_t applies)
{
    struct gives *asked = &block->asked[parent];

    if (word == FIRST_APPLICABLE) {
        uint64_t left = ~any(child);
        asked->permit &= left;
        asked->deny &= left;
        asked->indeterminate &= left;
    } else if (word == ONLY_ONE_APPLICABLE) {
        block->matched_twice[parent] |= block->matched[parent] & applies;
        block->matched[parent] |= applies;
    }
    *asked = join(*asked, child);
}

static struct gives combined(const struct block *block, unsigned word, int place)
{
    struct gives asked = block->asked[place];
    uint64_t deny = asked.deny | asked.indeterminate, twice = block->matched_twice[place];

    switch (word) {
    case DENY_OVERRIDES:
        return (struct gives){asked.permit & ~deny, deny, 0};
    case PERMIT_OVERRIDES:
        return (struct gives){asked.permit, asked.deny & ~asked.permit,
                              asked.indeterminate & ~(asked.permit | asked.deny)};
    case ONLY_ONE_APPLICABLE:
        return (struct gives){asked.permit & ~twice, asked.deny & ~twice, asked.indeterminate | twice};
    default:
        return asked;
    }
}

/* The last element goes first, so that children come before their parent. What doesn't apply gives nothing, so no
 * targets are tested here. */
void plain_evaluate(const struct policy *policy, struct block *block, const uint64_t applies[ELEMENTS])
{
    block->gives[0] = (struct gives){0, 0, 0};
    for (uint64_t left = block->active; left != 0; left &= left - 1) {
        int place = lowest(left);
        block->asked[place] = (struct gives){0, 0, 0};
        block->matched[place] = block->matched_twice[place] = 0;
    }
    for (uint64_t left = block->active; left != 0;) {
        int place = highest(left);
        const struct element *element = &policy->element[place];
        struct gives gives;

        left ^= bit(place);
        if (element->kind == 'R')
            gives = (struct gives){element->word == EFFECT_PERMIT ? applies[place] : 0,
                                   element->word == EFFECT_DENY ? applies[place] : 0, 0};
        else
            gives = combined(block, element->word, place);
        block->gives[place] = gives;
        if (place > 0) {
            block->later[place] = block->asked[element->parent];
            ask(block, policy->element[element->parent].word, element->parent, gives, applies[place]);
        }
    }
}

/* Whether the request and the target share a value in every lane: bit 15 of each lane tells. */
static bool shares(const uint64_t values[2], const uint16_t lanes[LANES])
{
    const uint64_t low = 0x7fff7fff7fff7fff;
    uint64_t target[2], all = ~low;

    memcpy(target, lanes, sizeof target);
    for (int i = 0; i < 2; i++) {
        uint64_t common = values[i] & target[i];
        all &= ((common & low) + low) | common;
    }
    return all == ~low;
}

/* Obligations for the decision of a single request, bit 0 of the chain; a refusal leaves the buffer alone. */
static jogimaduve_decision oblige(const struct policy *policy, const struct block *block, uint32_t decision,
                                  uint8_t *buffer, size_t buffer_length)
{
    uint8_t text[OBLIGATIONS * ELEMENTS * (NAME_BYTES + 1)], *at = text;
    struct chain chain;

    plain_chain(policy, block, &chain);
    for (unsigned i = 0; i < policy->obligations; i++) {
        const struct obligation *one = &policy->obligation[i];
        if (one->word != decision || !(chain.given[one->place] & 1))
            continue;
        memcpy(at, one->label, sizeof one->label); /* what is too much is written over */
        at += one->length;
    }
    uint32_t length = (uint32_t)(at - text);
    if (length > buffer_length)
        return (jogimaduve_decision){11, length, 0};
    memcpy(buffer, text, length);
    return (jogimaduve_decision){0, decision, length};
}

jogimaduve_decision plain_decide(const uint8_t *file, size_t file_length, const uint8_t *request, size_t request_length,
                                 uint8_t *buffer, size_t buffer_length)
{
    struct policy policy;
    struct block block;
    uint16_t lanes[LANES] = {1, 1, 1, 1, 1, 1, 1, 1};
    uint64_t applies[ELEMENTS], values[2];

    jogimaduve_answer answer = plain_read_policy(&policy, file, file_length);
    if (answer.number == 0)
        answer = plain_read_request(&policy, request, request_length, lanes);
    if (answer.number != 0)
        return (jogimaduve_decision){answer.number, answer.second, 0};

    memcpy(values, lanes, sizeof values);
    block.active = 0;
    applies[0] = 1; /* above the first element */
    for (unsigned place = 0; place < policy.elements; place++) {
        const struct element *element = &policy.element[place];
        applies[place] = applies[element->parent] & shares(values, element->target);
        block.active |= applies[place] << place;
    }
    plain_evaluate(&policy, &block, applies);
    uint32_t decision = block.gives[0].permit ? JOGIMADUVE_PERMIT : block.gives[0].deny ? JOGIMADUVE_DENY
        : block.gives[0].indeterminate ? JOGIMADUVE_INDETERMINATE : JOGIMADUVE_NOT_APPLICABLE;
    if (policy.obligations > 0 && decision <= JOGIMADUVE_DENY)
        return oblige(&policy, &block, decision, buffer, buffer_length);
    return (jogimaduve_decision){0, decision, 0};
}
