/* What a report tells: segments, conflicts, and the rules that trimming strikes and keeps. */
#include "plain_report.h"

#include <string.h>

enum { NONE = SPACE }; /* no request */

/* One step of turning: each square of twice this side gives its upper right quarter for its lower left one. */
static inline void turn_squares(uint64_t words[64], unsigned side, uint64_t low_half)
{
    for (unsigned start = 0; start < 64; start += 2 * side)
        for (unsigned i = start; i < start + side; i++) {
            uint64_t moved = (words[i] >> side ^ words[i + side]) & low_half;
            words[i] ^= moved << side;
            words[i + side] ^= moved;
        }
}

/* Turns 64 elements with a bit for each request into 64 requests with a bit for each element. */
static void turn(uint64_t words[64])
{
    turn_squares(words, 32, 0x00000000ffffffff);
    turn_squares(words, 16, 0x0000ffff0000ffff);
    turn_squares(words, 8, 0x00ff00ff00ff00ff);
    turn_squares(words, 4, 0x0f0f0f0f0f0f0f0f);
    turn_squares(words, 2, 0x3333333333333333);
    turn_squares(words, 1, 0x5555555555555555);
}

static void find_applying(struct report *report, unsigned elements)
{
    for (unsigned i = 0; i < report->trimming.blocks; i++) {
        uint64_t *words = report->applying + 64 * i;
        memcpy(words, report->trimming.applies[i], elements * sizeof *words);
        memset(words + elements, 0, (64 - elements) * sizeof *words);
        turn(words);
    }
}

/* Segments stand in the order of their first request; a table finds them by the elements that apply. */
static void find_segments(struct report *report, unsigned space)
{
    uint16_t slots[2 * SPACE]; /* a segment's number, from 1 */
    unsigned bits = 1, segment = 0;

    while (1u << bits < 2 * space)
        bits++;
    memset(slots, 0, sizeof *slots << bits);
    report->segments = 0;
    for (unsigned request = 0; request < space; request++) {
        uint64_t key = report->applying[request];
        if (request == 0 || key != report->applying[request - 1]) {
            size_t slot = key * 0x9e3779b97f4a7c15u >> (64 - bits);
            while (slots[slot] != 0 && report->applying[report->first[slots[slot] - 1]] != key)
                slot = (slot + 1) & ((1u << bits) - 1);
            if (slots[slot] == 0) {
                report->first[report->segments] = (uint16_t)request;
                report->count[report->segments] = 0;
                slots[slot] = (uint16_t)++report->segments;
            }
            segment = slots[slot] - 1u;
        }
        report->count[segment]++;
    }
}

/* Of an attribute with sets: a rule's target and those above it, but for the ones that share all of its values. */
struct wanted { unsigned targets; uint16_t target[8]; };

static void want(struct wanted *wanted, const struct policy *policy, unsigned place, unsigned attribute)
{
    unsigned own = policy->element[place].target[attribute];

    wanted->targets = 1;
    wanted->target[0] = (uint16_t)own;
    while (place != 0) {
        place = policy->element[place].parent;
        uint16_t above = policy->element[place].target[attribute];
        if (own & ~above)
            wanted->target[wanted->targets++] = above;
    }
}

/* The number of the lowest set that shares a value with each of these targets and one more. Its highest value is the
 * highest among the lowest values of all of them, since with the values below it there is one for each; then the same
 * again for the targets that don't hold it. */
static unsigned lowest_set(const struct wanted *wanted, unsigned other)
{
    unsigned set = 0;

    for (;;) {
        int needed = set & other ? -1 : lowest(other);
        for (unsigned i = 0; i < wanted->targets; i++) {
            unsigned target = wanted->target[i];
            if (!(set & target) && lowest(target) > needed)
                needed = lowest(target);
        }
        if (needed < 0)
            return set - 1;
        set |= 1u << needed;
    }
}

/* Two rules meet exactly if their targets do for each attribute, first at the lowest common values or sets. */
static unsigned first_meeting(const struct policy *policy, const struct element *one, const struct element *other,
                              const struct wanted wanted[ATTRIBUTES])
{
    unsigned request = 0;

    for (unsigned i = 0; i < policy->attributes; i++) {
        const struct attribute *attribute = &policy->attribute[i];
        unsigned common = one->target[i] & other->target[i];
        if (common == 0 && !attribute->sets)
            return NONE;
        request *= attribute->count;
        request += attribute->sets ? lowest_set(&wanted[i], other->target[i]) : (unsigned)lowest(common);
    }
    return request;
}

static void find_rule_conflicts(struct report *report, const struct policy *policy)
{
    struct wanted wanted[ATTRIBUTES];

    for (unsigned place = 0; place < policy->elements; place++) {
        const struct element *one = &policy->element[place];
        report->conflicting[place] = 0;
        if (one->kind != 'R')
            continue;
        for (unsigned i = 0; i < policy->attributes; i++)
            if (policy->attribute[i].sets)
                want(&wanted[i], policy, place, i);
        for (unsigned later = place + 1; later < policy->elements; later++) {
            const struct element *other = &policy->element[later];
            if (other->kind != 'R' || other->parent != one->parent)
                break; /* a policy's rules stand in one run */
            if (other->word == one->word)
                continue;
            unsigned request = first_meeting(policy, one, other, wanted);
            if (request == NONE)
                continue;
            report->conflicting[place] |= bit((int)later);
            report->conflict[place][later] = (uint16_t)request;
        }
    }
}

/* Conflicts of sets and policies: `open` has the later siblings with which an element doesn't conflict so far. */
static void find_conflicts(struct report *report, uint64_t open[ELEMENTS], const struct block *block, unsigned number)
{
    for (uint64_t left = block->active; left != 0; left &= left - 1) {
        int place = lowest(left);
        struct gives one = block->gives[place];
        if ((one.permit | one.deny) == 0)
            continue;
        for (uint64_t others = open[place] & block->active; others != 0; others &= others - 1) {
            int later = lowest(others);
            struct gives other = block->gives[later];
            uint64_t shown = (one.permit & other.deny) | (one.deny & other.permit);
            if (shown == 0)
                continue;
            open[place] ^= bit(later);
            report->conflicting[place] |= bit(later);
            report->conflict[place][later] = (uint16_t)(64 * number + (unsigned)lowest(shown));
        }
    }
}

static void start_open(const struct policy *policy, uint64_t open[ELEMENTS])
{
    uint64_t later[ELEMENTS] = {0}; /* children seen so far, by parent */

    for (unsigned place = policy->elements; place-- > 0;) {
        const struct element *element = &policy->element[place];
        open[place] = 0;
        if (element->kind == 'R' || place == 0)
            continue;
        open[place] = later[element->parent];
        later[element->parent] |= bit((int)place);
    }
}

void plain_look(struct report *report, const struct policy *policy)
{
    struct block block;
    uint64_t open[ELEMENTS];

    plain_start_trimming(&report->trimming, policy);
    find_applying(report, policy->elements);
    find_segments(report, policy->space);
    find_rule_conflicts(report, policy);
    start_open(policy, open);
    for (unsigned i = 0; i < report->trimming.blocks; i++) {
        plain_look_at(&report->trimming, policy, i, &block);
        report->decided[i] = block.gives[0];
        find_conflicts(report, open, &block, i);
    }
    plain_strike_needless(&report->trimming, policy);
    for (uint64_t left = report->trimming.kept; left != 0; left &= left - 1)
        report->need[lowest(left)] = (uint16_t)plain_first_need(&report->trimming, policy, lowest(left));

    memset(report->label_bits, 0, sizeof report->label_bits);
    for (unsigned place = 0; place < policy->elements; place++)
        for (int i = 0; i < 5; i++)
            if ((policy->element[place].length + 1) >> i & 1)
                report->label_bits[i] |= bit((int)place);
}
