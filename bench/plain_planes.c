/* To which requests the elements apply, as planes: a bit a request, laid down from the last attribute to the first. */
#include "plain_space.h"

#include <string.h>

/* Bits from `size` on are not set. What is laid down may reach into the word behind the last. */
struct plane { unsigned size; uint64_t word[BLOCKS + 1]; };

/* Clears the words behind the first `kept` bits, up to the one behind bit `end`. */
static void clear(struct plane *plane, unsigned kept, unsigned end)
{
    unsigned first = (kept + 63) / 64, words = (end + 63) / 64 + 1;

    if (words > first)
        memset(plane->word + first, 0, (words - first) * sizeof *plane->word);
}

/* Lays bits down again, `at` bits from the start. The last word goes first, so that bits may be laid behind themselves. */
static inline void lay(uint64_t *to, const uint64_t *bits, unsigned size, unsigned at)
{
    unsigned shift = at % 64, words = (size + 63) / 64;

    to += at / 64;
    if (shift == 0)
        while (words-- > 0)
            to[words] |= bits[words];
    else
        while (words-- > 0) {
            uint64_t word = bits[words];
            to[words + 1] |= word >> (64 - shift);
            to[words] |= word << shift;
        }
}

/* The plane again for each value that the target holds. */
static void spread_values(struct plane *to, const struct plane *plane, unsigned target)
{
    for (; target != 0; target &= target - 1)
        lay(to->word, plane->word, plane->size, (unsigned)lowest(target) * plane->size);
}

/* The same where all of it fits into a word. */
static uint64_t spread_word(uint64_t word, unsigned size, unsigned target)
{
    uint64_t to = 0;

    for (; target != 0; target &= target - 1)
        to |= word << (unsigned)lowest(target) * size;
    return to;
}

/* The plane again for each set that shares a value with the target, by doubling: behind the sets of lower values come a
 * value alone and then those sets with it. If the target holds it, they all share it, and `all` has as many planes as
 * they are. If not, the value alone has none, and the others have what they have without it. What fits into a word is
 * doubled there. */
static void spread_sets(struct plane *to, struct plane *all, unsigned values, unsigned target)
{
    uint64_t sets = 0, planes = all->word[0];
    unsigned size = all->size, width = size, value = 0; /* width: of `all` */

    for (; value < values && width <= 32; value++, width *= 2) {
        sets |= target >> value & 1 ? planes << (width - size) : sets << width;
        planes |= planes << width;
    }
    to->word[0] = sets;
    if (value == values)
        return;
    all->word[0] = planes;
    clear(all, width, size << (values - 1));
    for (; value < values; value++, width *= 2) {
        if (target >> value & 1)
            lay(to->word, all->word, width, width - size);
        else
            lay(to->word, to->word, width - size, width);
        if (value + 1 < values)
            lay(all->word, all->word, width, width);
    }
}

/* Takes in one attribute more, before those that `plane` has, which is left in any state. */
static void spread(struct plane *to, struct plane *plane, const struct attribute *attribute, unsigned target)
{
    to->size = plane->size * attribute->count;
    clear(to, 0, to->size);
    if (attribute->sets)
        spread_sets(to, plane, attribute->values, target);
    else if (to->size <= 64)
        to->word[0] = spread_word(plane->word[0], plane->size, target);
    else
        spread_values(to, plane, target);
}

void plain_apply(const struct policy *policy, uint64_t applies[BLOCKS][ELEMENTS], uint64_t active[BLOCKS])
{
    unsigned blocks = (policy->space + 63) / 64;

    for (unsigned i = 0; i < blocks; i++)
        applies[i][0] = ~(uint64_t)0; /* above the first element */
    for (unsigned place = 0; place < policy->elements; place++) {
        const struct element *element = &policy->element[place];
        struct plane planes[2];
        unsigned last = 0;

        planes[0].size = planes[0].word[0] = 1;
        for (unsigned i = policy->attributes; i-- > 0; last ^= 1)
            spread(&planes[last ^ 1], &planes[last], &policy->attribute[i], element->target[i]);
        for (unsigned i = 0; i < blocks; i++)
            applies[i][place] = planes[last].word[i] & applies[i][element->parent];
    }
    for (unsigned i = 0; i < blocks; i++) {
        uint64_t some = 0;
        for (unsigned place = 0; place < policy->elements; place++)
            some |= (uint64_t)(applies[i][place] != 0) << place;
        active[i] = some;
    }
}
