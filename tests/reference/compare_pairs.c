/* value_pairs: with the name of each attribute, as it is and in other letter case, and with names that most often no
 * attribute has. */
#include "compare.h"

#include <stdio.h>
#include <stdlib.h>
#include <string.h>

static struct bytes name;

/* Texts of an M of two values or more: with lines, without, too long for the buffer; and names of no M. Lines by the
 * decision with both values, with the earlier and with the later. */
static struct { unsigned long with_lines, without, too_long, no_set, lines[4][4][4]; } came_up;

static struct answer by_reference(const uint8_t *file, size_t length, uint8_t *out, size_t room)
{
    struct answer answer = ref_pairs(file, length, name.bytes, name.length, out, room);
    came_up.too_long += answer.number == 11;
    return answer;
}

static jogimaduve_answer by_library(const uint8_t *file, size_t length, uint8_t *out, size_t room)
{
    uint8_t *lent_name = exactly(name.bytes, name.length);
    jogimaduve_answer answer = jogimaduve_value_pairs(file, length, lent_name, name.length, out, room);
    if (memcmp(lent_name, name.bytes, name.length) != 0)
        answer.number = UINT32_MAX; /* no answer of the reference: the name was written to */
    free(lent_name);
    return answer;
}

static void compare_name(const struct bytes *file, size_t most_rooms)
{
    unsigned long before = differences;
    struct answer answer = compare_rooms("value_pairs", file, most_rooms, below(2) ? 4096 : below(64), by_reference,
                                         by_library);
    came_up.no_set += answer.number == 13;
    if (differences > before)
        show_bytes("name", name.bytes, name.length);
}

static void count_lines(const struct policy *policy, int attribute)
{
    static struct pair line[SPACE];
    int lines = pairs_of(policy, attribute, line);

    came_up.with_lines += lines > 0;
    came_up.without += lines == 0 && policy->attribute[attribute].values > 1;
    for (int i = 0; i < lines; i++)
        came_up.lines[line[i].both][line[i].earlier][line[i].later]++;
}

/* Each attribute's name, as it is and in other case. */
static void compare_attributes(const struct bytes *file, const struct policy *policy, size_t most_rooms)
{
    for (int i = 0; i < policy->attributes; i++) {
        const struct attribute *attribute = &policy->attribute[i];
        name.length = 0;
        replace(&name, 0, 0, attribute->name.bytes, attribute->name.length);
        compare_name(file, most_rooms);
        turn_case(name.bytes, name.length);
        compare_name(file, 0);
        if (policy->space <= 256 && attribute->letter == 'M')
            count_lines(policy, i);
    }
}

void compare_pairs(const struct bytes *file, const struct policy *policy, int accepted)
{
    if (accepted)
        compare_attributes(file, policy, policy->space <= 256 ? 5 : 1);
    for (int i = 0; i < 2; i++) {
        make_name(&name, file, ATTRIBUTE_LINE, 1);
        compare_name(file, 0);
    }
}

void compare_small_files(void)
{
    static struct bytes file;
    static struct policy policy;

    for (int i = 0; i < 2; i++) {
        make_small_file(&file);
        if (read_policy(file.bytes, file.length, &policy).number != 0)
            continue;
        compare_attributes(&file, &policy, 0);
        compare_strikes(&file, &policy);
        if (one_in(4))
            compare_held(&file);
        if (one_in(8))
            compare_accept(&file, &policy, 1);
    }
}

int pairs_seen(void)
{
    /* A line's decisions are not all three alike; and what applies with one value applies with both, so with both there is
     * no not-applicable but where each alone has it. */
    enum { KINDS = 3 * (16 - 1), MOST_KINDS = KINDS - 5 };
    int kinds = 0;

    for (int i = 0; i < 64; i++)
        kinds += came_up.lines[i / 16][i / 4 % 4][i % 4] > 0;
    printf("pairs of values: texts with lines %lu, without %lu, too long for the buffer %lu, no M named %lu,",
           came_up.with_lines, came_up.without, came_up.too_long, came_up.no_set);
    printf(" lines of %d kinds in %d\n", kinds, KINDS);
    return came_up.with_lines >= OFTEN && came_up.without >= OFTEN && came_up.too_long >= OFTEN && came_up.no_set >= OFTEN
        && kinds >= MOST_KINDS;
}
