/* Accepting a proposal: the original's lines with rules left out, which decides alike and has no needless rule. */
#include "plain.h"
#include "plain_space.h"

#include <string.h>

/* Lines that are left to match, and the rules that the proposal was found to leave out. */
struct matching {
    const uint8_t *original, *original_end, *proposal, *proposal_end;
    uint64_t struck;
};

/* Goes past the original's next bytes in both, if the proposal has them too. */
static bool pass(struct matching *matching, size_t length)
{
    if ((size_t)(matching->proposal_end - matching->proposal) < length
        || memcmp(matching->original, matching->proposal, length) != 0)
        return false;
    matching->original += length;
    matching->proposal += length;
    return true;
}

/* Element by element. No element's line stands twice, so a rule whose line isn't the next one is left out. */
static bool match(struct matching *matching, const struct policy *policy)
{
    if (!pass(matching, policy->element[0].line))
        return false;
    for (unsigned place = 0; place < policy->elements; place++) {
        const struct element *element = &policy->element[place];
        if (pass(matching, element->line_length))
            continue;
        if (element->kind != 'R')
            return false;
        matching->struck |= bit((int)place);
        matching->original += element->line_length;
    }
    return matching->proposal == matching->proposal_end;
}

/* Where matching has stopped: the proposal's line with the first other byte; 0 if its lines end before. */
static uint32_t other_line(struct matching matching, const uint8_t *proposal)
{
    uint32_t line = 1;

    while (matching.proposal < matching.proposal_end && matching.original < matching.original_end
           && *matching.proposal == *matching.original) {
        matching.proposal++;
        matching.original++;
    }
    if (matching.proposal == matching.proposal_end)
        return 0;
    for (; proposal < matching.proposal; proposal++)
        line += *proposal == '\n';
    return line;
}

/* The proposal's line of an element. */
static uint32_t line_of(const struct policy *policy, uint64_t struck, int place)
{
    unsigned obligations = 0;

    while (obligations < policy->obligations && policy->obligation[obligations].place < place)
        obligations++;
    return policy->attributes + (uint32_t)place - (uint32_t)__builtin_popcountll(struck & (bit(place) - 1))
        + obligations + 1;
}

/* The first of a block's requests that gets another decision or other obligations; 64 if there is none. */
static unsigned first_differing(const struct trimming *trimming, const struct policy *policy, struct gives one,
                                struct gives other, const struct chain *one_chain, const struct chain *other_chain)
{
    uint64_t differing = (one.permit ^ other.permit) | (one.deny ^ other.deny)
        | (one.indeterminate ^ other.indeterminate);
    uint64_t before = ~differing & (differing - 1); /* all if none differs */

    if (policy->obligations > 0) {
        unsigned first = plain_first_other_names(trimming, policy, one, one_chain->given, other_chain->given, before);
        if (first < 64)
            return first;
    }
    return differing != 0 ? (unsigned)lowest(differing) : 64;
}

/* Decides a block with the struck rules and then without them; gives the first request that differs. */
static unsigned leave_out(struct trimming *trimming, const struct policy *policy, unsigned number, uint64_t struck,
                          struct block *block, struct chain *chain)
{
    struct chain original;

    plain_decide_block(trimming, policy, number, block, &original);
    struct gives decided = block->gives[0];
    trimming->active[number] &= ~struck; /* what isn't active isn't asked */
    plain_decide_block(trimming, policy, number, block, chain);
    return first_differing(trimming, policy, decided, block->gives[0], &original, chain);
}

/* The original's elements and planes serve for the proposal too. A block is left alone if none of the struck rules is active
 * in it, and no rule that isn't known to be needed. */
static jogimaduve_answer test(const struct policy *policy, uint64_t struck)
{
    struct trimming trimming;
    struct block block;
    struct chain chain;

    plain_start_trimming(&trimming, policy);
    uint64_t needless = trimming.kept & ~struck; /* as far as is known */
    for (unsigned i = 0; i < trimming.blocks; i++) {
        uint64_t active = trimming.active[i];
        unsigned first = active & struck ? leave_out(&trimming, policy, i, struck, &block, &chain) : 64;
        if (first < 64)
            return (jogimaduve_answer){17, 64 * i + first};
        if (!(active & needless))
            continue;
        if (!(active & struck))
            plain_decide_block(&trimming, policy, i, &block, &chain);
        plain_find_needed(&trimming, policy, i, &block, &chain);
        needless &= ~trimming.needed[i];
    }
    for (; needless != 0; needless &= needless - 1) {
        int rule = lowest(needless);
        if (policy->obligations == 0 || !plain_needs_obligations(&trimming, policy, rule))
            return (jogimaduve_answer){18, line_of(policy, struck, rule)};
    }
    return (jogimaduve_answer){0, 0};
}

/* A proposal that matches is not read: without some of its rules a policy file is still one. */
jogimaduve_answer plain_accept(const uint8_t *original, size_t original_length,
                               const uint8_t *proposal, size_t proposal_length)
{
    struct policy policy;
    struct matching matching = {original, original + original_length, proposal, proposal + proposal_length, 0};

    jogimaduve_answer answer = plain_read_policy(&policy, original, original_length);
    if (answer.number != 0)
        return answer;
    if (match(&matching, &policy))
        return test(&policy, matching.struck);
    answer = plain_read_policy(&policy, proposal, proposal_length);
    if (answer.number != 0)
        return answer;
    return (jogimaduve_answer){16, other_line(matching, proposal)};
}
