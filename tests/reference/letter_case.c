/* Letter case: names with capitals, names that are equal but for case, and bytes that are letters by a bit only. */
#include "generate.h"

#include <stdio.h>
#include <string.h>

static int is_letter(uint8_t byte)
{
    uint8_t small = byte | CASE_BIT;
    return small >= 'a' && small <= 'z';
}

void spell(char *name, int spelling)
{
    for (int i = 0; name[i] != 0; i++) {
        int capital = spelling == 1 ? i == 0 : spelling == 2 || (spelling == 3 && one_in(2));
        if (capital && is_letter((uint8_t)name[i]))
            name[i] ^= CASE_BIT;
    }
}

int turn_case(uint8_t *bytes, size_t length)
{
    uint32_t way = below(4); /* the first byte, the last, any letters, all */
    int turned = 0;

    for (int tries = 0; tries < 2 && !turned; tries++, way = 3)
        for (size_t i = 0; i < length; i++)
            if (is_letter(bytes[i]) && (way == 0 ? i == 0 : way == 1 ? i + 1 == length : way == 3 || one_in(2))) {
                bytes[i] ^= CASE_BIT;
                turned = 1;
            }
    return turned;
}

uint8_t byte_beside_letters(void)
{
    return (uint8_t)"@AZ[`az{"[below(8)];
}

void make_equal(uint8_t name[NAME_BYTES], uint8_t other[NAME_BYTES], size_t *length)
{
    if (one_in(2)) { /* of 16 bytes, in other case at one end alone */
        memset(name + *length, '-', NAME_BYTES - *length);
        *length = NAME_BYTES;
        name[0] = (uint8_t)('a' + below(26));
        name[NAME_BYTES - 1] = (uint8_t)('A' + below(26));
        memcpy(other, name, NAME_BYTES);
        other[one_in(2) ? 0 : NAME_BYTES - 1] ^= CASE_BIT;
    } else {
        memcpy(other, name, *length);
        turn_case(other, *length);
    }
}

/* Two names of one pool, that of the attributes, of one attribute's values or of the elements, become equal but for
 * case. They may turn out to be one name, which is then spelt otherwise. */
static void equal_in_pool(struct bytes *file)
{
    uint8_t name[NAME_BYTES], other[NAME_BYTES];
    uint32_t pool = below(3);
    size_t at[2], length[2], line_length, line = pick_line(file, ATTRIBUTE_LINE, &line_length);
    uint32_t values = count_values(file, line, line_length);

    for (int i = 0; i < 2; i++)
        at[i] = pool == 0 ? pick_field(file, ATTRIBUTE_LINE, 1, &length[i])
            : pool == 1 ? field_of(file, line, line_length, 2 + below(values), &length[i])
            : pick_field(file, TREE_LINE, 2, &length[i]);
    int later = at[1] > at[0], earlier = !later;
    size_t count = length[earlier];
    if (count > NAME_BYTES)
        return;
    memcpy(name, file->bytes + at[earlier], count);
    make_equal(name, other, &count);
    replace(file, at[later], length[later], other, count);
    if (at[earlier] != at[later])
        replace(file, at[earlier], length[earlier], name, count);
}

/* Very many values on an attribute line, perhaps one of them twice but for case. */
static void many_values(struct bytes *file)
{
    const char *format = one_in(2) ? "\tvalue-%04lu-of-16" : "\tv%lu";
    char value[24];
    size_t length, line = pick_line(file, ATTRIBUTE_LINE, &length);
    uint32_t values = 9 + below(one_in(4) ? 200 : 32), again = below(values), of = one_in(3) ? again : below(values);

    for (uint32_t i = 0; i < values; i++) {
        size_t count = (size_t)sprintf(value, format, (unsigned long)(i == again ? of : i));
        if (i == again)
            turn_case((uint8_t *)value + 1, count - 1);
        replace(file, line + length, 0, value, count);
        length += count;
    }
}

void damage_case(struct bytes *file)
{
    size_t length, at;

    switch (below(20)) {
    case 0: case 1: case 2: case 3: case 4: case 5: equal_in_pool(file); break;
    case 6: case 7: case 8: many_values(file); break;
    case 9: case 10: case 11: /* a value in a target, if one is found */
        for (int tries = 0, turned = 0; tries < 8 && !turned; tries++) {
            at = pick_field(file, TREE_LINE, 4 + below(6), &length);
            turned = turn_case(file->bytes + at, length);
        }
        break;
    case 12: case 13: /* a word */
        at = pick_field(file, TREE_LINE, 3, &length);
        turn_case(file->bytes + at, length);
        break;
    case 14: case 15: /* a line's letter */
        at = pick_field(file, one_in(3) ? ATTRIBUTE_LINE : ANY_LINE, 0, &length);
        turn_case(file->bytes + at, length);
        break;
    case 16: case 17: case 18: /* a byte at the first, the middle or the last place of a name */
        at = pick_name(file, &length);
        at += length > 0 ? (length - 1) * below(3) / 2 : 0;
        file->bytes[at] = byte_beside_letters();
        break;
    default: file->bytes[below((uint32_t)file->length)] ^= CASE_BIT; break;
    }
}
