/* Damages that concern attributes whose values a request holds as sets: lines `M`, made, moved and mistaken for `A`. Some
 * leave a good file. */
#include "generate.h"

#include <stdio.h>
#include <string.h>

#define ONE_OF(strings) ((strings)[below(sizeof(strings) / sizeof *(strings))])

/* The other letter: an A of 13 values or more is good, an M of many counts much more in the space. */
static void turn_letter(struct bytes *file)
{
    size_t length, line = pick_line(file, ATTRIBUTE_LINE, &length);

    if (length > 0 && (file->bytes[line] == 'A' || file->bytes[line] == 'M'))
        file->bytes[line] = file->bytes[line] == 'A' ? 'M' : 'A';
}

/* An attribute line becomes an M of 11 to 17 values, perhaps the last one for the second time or no name. */
static void fill_values(struct bytes *file)
{
    static const uint32_t sizes[] = {11, 12, 12, 12, 13, 13, 13, 14, 16, 17};
    char value[24];
    size_t length, count, line = pick_line(file, ATTRIBUTE_LINE, &length);
    uint32_t values = count_values(file, line, length), wanted = ONE_OF(sizes);

    if (values == 0)
        return;
    file->bytes[line] = 'M';
    for (; values < wanted; values++) {
        sprintf(value, "\tFill%lu", (unsigned long)values);
        replace(file, line + length, 0, value, strlen(value));
        length += strlen(value);
    }
    if (one_in(4)) { /* the last value is an earlier one, letter case aside, or a bad name */
        size_t last = field_of(file, line, length, 1 + values, &count);
        uint8_t other[2 * NAME_BYTES] = "Bad_";
        size_t other_count = 4;
        if (!one_in(3)) {
            size_t from = field_of(file, line, length, 2 + below(values - 1), &other_count);
            other_count = other_count < sizeof other ? other_count : sizeof other;
            memcpy(other, file->bytes + from, other_count);
            if (one_in(2))
                turn_case(other, other_count);
        }
        replace(file, last, count, other, other_count);
    }
}

/* One, two or three fields are left of an attribute line. */
static void cut_fields(struct bytes *file)
{
    size_t length, count, line = pick_line(file, ATTRIBUTE_LINE, &length);
    size_t last = field_of(file, line, length, below(3), &count);

    if (length == 0)
        return;
    if (!one_in(3))
        file->bytes[line] = 'M';
    replace(file, last + count, line + length - last - count, "", 0);
}

/* Where the first tree line starts. */
static size_t tree_start(const struct bytes *file)
{
    size_t line = 0;

    while (line < file->length && (file->bytes[line] == 'A' || file->bytes[line] == 'M')) {
        const uint8_t *end = memchr(file->bytes + line, '\n', file->length - line);
        line = end == NULL ? file->length : (size_t)(end - file->bytes) + 1;
    }
    return line;
}

/* More attribute lines before the tree, and `*` for each in every tree line: good, if they are not too many and the space
 * has room for them. */
static void more_attributes(struct bytes *file)
{
    static const char *const lines[] = {
        "M\tmore%d\tonly\n", "M\tmore%d\tOnly\n", "A\tmore%d\tonly\n", "M\tmore%d\ta\tb\n", "M\tmore%d\ta\tb\tc\n",
        "M\tmore%d\ta\tb\tc\td\te\tf\n", "M\tmore%d\ta\tb\tc\td\te\tf\tg\th\ti\tj\tk\tl\n",
    };
    char line[60];

    for (int more = 1 + (int)below(one_in(2) ? 6 : 2); more > 0; more--) {
        size_t at = tree_start(file);
        sprintf(line, lines[below(one_in(2) ? 3 : 7)], more);
        replace(file, at, 0, line, strlen(line));
        for (size_t i = at + strlen(line), start = i; i < file->length; i++)
            if (file->bytes[i] == '\n') {
                size_t more_bytes = file->bytes[start] == 'O' ? 0 : 2; /* an obligation has no target */
                replace(file, i, 0, "\t*", more_bytes);
                i += more_bytes;
                start = i + 1;
            }
    }
}

/* An M line behind the tree or somewhere in it, good but for its place; or the first tree line before all others. */
static void misplace(struct bytes *file)
{
    static const char *const lines[] = {
        "M\tmisplaced\ta\n", "M\tmisplaced\ta\tb\n", "M\tmisplaced\ta\tb\tc\td\te\tf\tg\th\ti\tj\tk\tl\tm\n",
        "M\tmisplaced\ta\tA\n", "M\tmisplaced\n", "S\t0\ttop\tdeny-overrides\n", "P\t0\ttop\tdeny-overrides\t*\n",
    };
    const char *line = ONE_OF(lines);
    size_t length, at = pick_line(file, TREE_LINE, &length);

    if (line[0] != 'M')
        at = 0;
    else if (one_in(2))
        at = file->length;
    replace(file, at, 0, line, strlen(line));
}

void damage_sets(struct bytes *file)
{
    static const char *const letters[] = {"M", "MM", "m", "AM", "MA", "N", "L", "M,", "-", "a", "A"};

    switch (below(12)) {
    case 0: case 1: turn_letter(file); break;
    case 2: case 3: case 4: fill_values(file); break;
    case 5: cut_fields(file); break;
    case 6: case 7: case 8: more_attributes(file); break;
    case 9: case 10: misplace(file); break;
    default: set_field(file, one_in(3) ? ANY_LINE : ATTRIBUTE_LINE, 0, ONE_OF(letters)); break;
    }
}
