/* Trimming, and showing the rule that it strikes first. */
#include "plain.h"
#include "plain_space.h"

#include <string.h>

static uint64_t choose(uint64_t which, uint64_t yes, uint64_t no) { return (which & yes) | (~which & no); }

/* The same, of these requests alone. */
static struct changes within(struct changes changes, uint64_t mine)
{
    return (struct changes){changes.permit & mine, changes.deny & mine, changes.indeterminate & mine,
                            changes.not_applicable & mine};
}

/* A child's changes, from its parent's. `earlier` is what the siblings before it give, put together. */
static struct changes changes_of(unsigned word, struct changes parent, struct gives earlier, struct gives later,
                                 uint64_t matched_twice)
{
    struct gives others = join(earlier, later);
    uint64_t deny = others.deny | others.indeterminate, mine;
    struct changes child = parent;

    switch (word) {
    case DENY_OVERRIDES:
        child.indeterminate = parent.deny;
        child.permit = choose(deny, parent.deny, parent.permit);
        child.not_applicable = choose(deny, parent.deny, choose(others.permit, parent.permit, parent.not_applicable));
        return child;
    case PERMIT_OVERRIDES:
        child.not_applicable = choose(others.indeterminate, parent.indeterminate, parent.not_applicable);
        child.not_applicable = choose(others.deny, parent.deny, child.not_applicable);
        child.not_applicable = choose(others.permit, parent.permit, child.not_applicable);
        child.indeterminate = choose(others.deny, parent.deny, parent.indeterminate);
        child.indeterminate = choose(others.permit, parent.permit, child.indeterminate);
        child.deny = choose(others.permit, parent.permit, parent.deny);
        return child;
    case FIRST_APPLICABLE:
        mine = ~any(earlier);
        child.not_applicable = (later.permit & parent.permit) | (later.deny & parent.deny)
            | (later.indeterminate & parent.indeterminate) | (~any(later) & parent.not_applicable);
        break;
    default: /* only-one-applicable */
        mine = ~matched_twice;
        break;
    }
    return within(child, mine);
}

/* Requests on which a policy gives another decision without a rule that applies to them. */
static uint64_t moved(unsigned word, unsigned effect, struct gives earlier, struct gives later)
{
    struct gives others = join(earlier, later);

    if (word == FIRST_APPLICABLE)
        return ~any(earlier) & ~(effect == EFFECT_PERMIT ? later.permit : later.deny);
    if ((word == DENY_OVERRIDES) == (effect == EFFECT_DENY)) /* it overrides the others */
        return effect == EFFECT_DENY ? ~others.deny : ~others.permit;
    return ~any(others);
}

/* The rules without which a request's decision changes; the first such request of each goes into `first`. Where there is a
 * chain, `perhaps` gets the requests whose obligations may change without a rule, but not their decisions. */
static uint64_t needed_rules(const struct policy *policy, struct block *block, const uint64_t applies[ELEMENTS],
                             uint8_t first[ELEMENTS], const struct chain *chain, uint64_t perhaps[ELEMENTS])
{
    struct changes changes[ELEMENTS];
    struct gives earlier[ELEMENTS], root = block->gives[0];
    uint64_t needed = 0;

    for (uint64_t left = block->active; left != 0; left &= left - 1) {
        int place = lowest(left), parent = policy->element[place].parent;
        unsigned word = policy->element[parent].word;
        struct changes child = {~root.permit, ~root.deny, ~root.indeterminate, any(root)};
        struct gives before = {0, 0, 0};

        if (place > 0) {
            before = earlier[parent];
            child = changes_of(word, changes[parent], before, block->later[place], block->matched_twice[parent]);
            earlier[parent] = join(before, block->gives[place]);
        }
        uint64_t mine = applies[place], changed = mine & child.not_applicable;
        if (policy->element[place].kind != 'R') {
            changes[place] = within(child, mine);
            earlier[place] = (struct gives){0, 0, 0};
            continue;
        }
        if (changed != 0) {
            needed |= bit(place);
            first[place] = (uint8_t)lowest(changed);
        }
        if (chain != NULL)
            perhaps[place] = mine & ~changed & chain->asked[parent] & (root.permit | root.deny)
                & moved(word, policy->element[place].word, before, block->later[place]);
    }
    return needed;
}

void plain_start_trimming(struct trimming *trimming, const struct policy *policy)
{
    trimming->blocks = (policy->space + 63) / 64;
    trimming->kept = 0;
    trimming->strikes = 0;
    for (unsigned place = 0; place < policy->elements; place++)
        if (policy->element[place].kind == 'R')
            trimming->kept |= bit((int)place);
    plain_apply(policy, trimming->applies, trimming->active);
    if (policy->obligations > 0)
        plain_start_obliged(&trimming->obliged, policy);
}

void plain_decide_block(const struct trimming *trimming, const struct policy *policy, unsigned number,
                        struct block *block, struct chain *chain)
{
    block->active = trimming->active[number];
    plain_evaluate(policy, block, trimming->applies[number]);
    if (policy->obligations > 0)
        plain_chain(policy, block, chain);
}

void plain_find_needed(struct trimming *trimming, const struct policy *policy, unsigned number, struct block *block,
                       const struct chain *chain)
{
    struct obliged *obliged = &trimming->obliged;

    if (policy->obligations > 0) {
        memcpy(obliged->given[number], chain->given, policy->elements * sizeof *chain->given);
        obliged->needed[number] = 0;
    }
    trimming->needed[number] = needed_rules(policy, block, trimming->applies[number], trimming->first[number],
                                            policy->obligations > 0 ? chain : NULL, obliged->perhaps[number]);
}

void plain_look_at(struct trimming *trimming, const struct policy *policy, unsigned number, struct block *block)
{
    struct chain chain;

    plain_decide_block(trimming, policy, number, block, &chain);
    plain_find_needed(trimming, policy, number, block, &chain);
}

/* The last rule that no request needs, or -1. */
static int last_needless(struct trimming *trimming, const struct policy *policy)
{
    uint64_t needless = trimming->kept;

    for (unsigned i = 0; i < trimming->blocks; i++)
        needless &= ~trimming->needed[i];
    for (unsigned i = 0; i < trimming->blocks && policy->obligations > 0; i++)
        needless &= ~trimming->obliged.needed[i];
    for (; needless != 0; needless ^= bit(highest(needless)))
        if (policy->obligations == 0 || !plain_needs_obligations(trimming, policy, highest(needless)))
            return highest(needless);
    return -1;
}

/* Only the blocks to which a struck rule applied are looked at again. */
void plain_strike_needless(struct trimming *trimming, const struct policy *policy)
{
    struct block block;

    for (int rule; (rule = last_needless(trimming, policy)) >= 0;) {
        trimming->kept ^= bit(rule);
        trimming->struck[trimming->strikes++] = (uint8_t)rule;
        for (unsigned i = 0; i < trimming->blocks; i++) {
            if (!(trimming->active[i] & bit(rule)))
                continue;
            trimming->applies[i][rule] = 0;
            trimming->active[i] ^= bit(rule);
            plain_look_at(trimming, policy, i, &block);
        }
    }
}

static size_t trimmed_length(const struct policy *policy, const struct trimming *trimming, size_t file_length)
{
    for (unsigned i = 0; i < trimming->strikes; i++)
        file_length -= policy->element[trimming->struck[i]].line_length;
    return file_length;
}

/* Reads a file and looks at every block. */
static jogimaduve_answer look_through(struct trimming *trimming, struct policy *policy, const uint8_t *file, size_t length)
{
    struct block block;

    jogimaduve_answer answer = plain_read_policy(policy, file, length);
    if (answer.number != 0)
        return answer;
    plain_start_trimming(trimming, policy);
    for (unsigned i = 0; i < trimming->blocks; i++)
        plain_look_at(trimming, policy, i, &block);
    return answer;
}

jogimaduve_answer plain_find_needless(struct policy *policy, const uint8_t *file, size_t length, int *rule)
{
    struct trimming trimming;

    jogimaduve_answer answer = look_through(&trimming, policy, file, length);
    if (answer.number == 0)
        *rule = last_needless(&trimming, policy);
    return answer;
}

jogimaduve_answer plain_next_rule(const uint8_t *file, size_t file_length, uint8_t *buffer, size_t buffer_length)
{
    struct policy policy;
    int rule;

    jogimaduve_answer answer = plain_find_needless(&policy, file, file_length, &rule);
    if (answer.number != 0)
        return answer;
    if (rule < 0)
        return (jogimaduve_answer){0, 0};
    const struct element *element = &policy.element[rule];
    if (element->length > buffer_length)
        return (jogimaduve_answer){11, element->length};
    memcpy(buffer, element->label, element->length);
    return (jogimaduve_answer){0, element->length};
}

jogimaduve_answer plain_trim(const uint8_t *file, size_t file_length, uint8_t *buffer, size_t buffer_length)
{
    struct policy policy;
    struct trimming trimming;

    jogimaduve_answer answer = look_through(&trimming, &policy, file, file_length);
    if (answer.number != 0)
        return answer;
    plain_strike_needless(&trimming, &policy);

    size_t length = trimmed_length(&policy, &trimming, file_length);
    if (length > buffer_length)
        return (jogimaduve_answer){11, (uint32_t)length};
    size_t header = policy.element[0].line;
    memcpy(buffer, policy.text, header);
    buffer += header;
    for (unsigned place = 0; place < policy.elements; place++) {
        const struct element *element = &policy.element[place];
        if (element->kind == 'R' && !(trimming.kept & bit((int)place)))
            continue;
        memcpy(buffer, policy.text + element->line, element->line_length);
        buffer += element->line_length;
    }
    return (jogimaduve_answer){0, (uint32_t)length};
}
