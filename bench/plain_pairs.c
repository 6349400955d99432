/* Pairs of values that get another decision than one of the two alone. */
#include "plain.h"
#include "plain_names.h"
#include "plain_space.h"

#include <string.h>

/* What 64 requests get, by the two bits of the decision's number in jogimaduve.h. */
struct decided { uint64_t low, high; };

/* The same of every request. There is a word more, so that 64 may be taken from any request on. */
struct outcome { uint64_t low[BLOCKS + 1], high[BLOCKS + 1]; };

/* There are most lines with three values: three of their seven sets are pairs. */
enum { MOST_LINES = SPACE * 3 / 7, LINE_BYTES = sizeof "D\t1234\tnot-applicable\tnot-applicable\tnot-applicable" };
enum { WORD_BYTES = 16 }; /* of a decision, a tab before it */

/* The number of the M of this name; that of the attributes if there is none. */
static unsigned find_sets(const struct policy *policy, const uint8_t *bytes, size_t length)
{
    struct name name = given_name(bytes, length);

    for (unsigned i = 0; i < policy->attributes; i++) {
        const struct attribute *attribute = &policy->attribute[i];
        if (attribute->sets && attribute->name_length == length && same(name, attribute->name))
            return i;
    }
    return policy->attributes;
}

static void decide_all(struct outcome *outcome, const struct policy *policy)
{
    uint64_t applies[BLOCKS][ELEMENTS], active[BLOCKS];
    unsigned blocks = (policy->space + 63) / 64;
    struct block block;

    plain_apply(policy, applies, active);
    for (unsigned i = 0; i < blocks; i++) {
        block.active = active[i];
        plain_evaluate(policy, &block, applies[i]);
        outcome->low[i] = block.gives[0].deny | block.gives[0].indeterminate;
        outcome->high[i] = ~(block.gives[0].permit | block.gives[0].deny);
    }
    outcome->low[blocks] = outcome->high[blocks] = 0;
}

/* 64 bits from any one on. */
static uint64_t bits_from(const uint64_t *words, unsigned at)
{
    return words[at / 64] >> at % 64 | words[at / 64 + 1] << 1 << (63 - at % 64);
}

static struct decided decided_from(const struct outcome *outcome, unsigned request)
{
    return (struct decided){bits_from(outcome->low, request), bits_from(outcome->high, request)};
}

static uint64_t differing(struct decided a, struct decided b) { return (a.low ^ b.low) | (a.high ^ b.high); }

/* Words are copied whole; what follows is written over. */
static uint8_t *put_decision(uint8_t *at, struct decided decided, int place)
{
    static const struct { char text[WORD_BYTES]; size_t length; } words[4] = {
        {"\tpermit", 7}, {"\tdeny", 5}, {"\tnot-applicable", 15}, {"\tindeterminate", 14},
    };
    unsigned number = (unsigned)(decided.low >> place & 1) | (unsigned)(decided.high >> place & 1) << 1;

    memcpy(at, words[number].text, WORD_BYTES);
    return at + words[number].length;
}

static uint8_t *put_number(uint8_t *at, unsigned number)
{
    unsigned digits = 1 + (number > 9) + (number > 99) + (number > 999);

    for (unsigned i = digits; i-- > 0; number /= 10)
        at[i] = (uint8_t)('0' + number % 10);
    return at + digits;
}

/* The lines of up to 64 requests with both values. */
static uint8_t *put_lines(uint8_t *at, unsigned request, unsigned size, struct decided both, struct decided earlier,
                          struct decided later)
{
    uint64_t lines = (differing(both, earlier) | differing(both, later)) & ~(uint64_t)0 >> (64 - size);

    for (; lines != 0; lines &= lines - 1) {
        int place = lowest(lines);
        memcpy(at, "D\t", 2);
        at = put_number(at + 2, request + (unsigned)place);
        at = put_decision(at, both, place);
        at = put_decision(at, earlier, place);
        at = put_decision(at, later, place);
        *at++ = '\n';
    }
    return at;
}

/* Pairs rise by their later value, then by the earlier one. A set has runs of `weight` requests, one for each choice of
 * the attributes before; the set without value v has its run 2^v runs before. */
static size_t put_pairs(uint8_t *text, const struct outcome *outcome, const struct attribute *attribute,
                        unsigned weight, unsigned space)
{
    uint8_t *at = text;

    for (unsigned base = 0; base < space; base += attribute->count * weight)
        for (unsigned later = 1; later < attribute->values; later++)
            for (unsigned earlier = 0; earlier < later; earlier++)
                for (unsigned done = 0; done < weight; done += 64) {
                    unsigned request = base + ((1u << earlier) + (1u << later) - 1) * weight + done;
                    unsigned size = weight - done < 64 ? weight - done : 64;
                    at = put_lines(at, request, size, decided_from(outcome, request),
                                   decided_from(outcome, request - (weight << later)),
                                   decided_from(outcome, request - (weight << earlier)));
                }
    return (size_t)(at - text);
}

jogimaduve_answer plain_value_pairs(const uint8_t *file, size_t file_length,
                                    const uint8_t *attribute, size_t attribute_length,
                                    uint8_t *buffer, size_t buffer_length)
{
    struct policy policy;
    struct outcome outcome;
    uint8_t text[MOST_LINES * LINE_BYTES + WORD_BYTES]; /* a refusal leaves the buffer alone */

    jogimaduve_answer answer = plain_read_policy(&policy, file, file_length);
    if (answer.number != 0)
        return answer;
    unsigned named = find_sets(&policy, attribute, attribute_length), weight = 1;
    if (named == policy.attributes)
        return (jogimaduve_answer){13, 0};
    for (unsigned i = named + 1; i < policy.attributes; i++)
        weight *= policy.attribute[i].count;

    decide_all(&outcome, &policy);
    size_t length = put_pairs(text, &outcome, &policy.attribute[named], weight, policy.space);
    if (length > buffer_length)
        return (jogimaduve_answer){11, (uint32_t)length};
    memcpy(buffer, text, length);
    return (jogimaduve_answer){0, (uint32_t)length};
}
