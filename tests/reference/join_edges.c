/* Pairs of files to be joined that are made for an edge, or of a file that was made for other things. */
#include "generate.h"

#include <stdio.h>
#include <string.h>

enum { LONG_VALUES = 10 };

/* An attribute of values of 16 bytes, and all of them but the last as a target. */
static void put_long_line(struct bytes *file, int number)
{
    char field[60];

    sprintf(field, "A\tlong%d", number);
    put(file, field);
    for (int value = 0; value < LONG_VALUES; value++) {
        sprintf(field, "\tvalue-%d-of-long%d", value, number);
        put(file, field);
    }
    put(file, "\n");
}

static void put_long_target(struct bytes *file, int number)
{
    char field[60];

    for (int value = 0; value < LONG_VALUES - 1; value++) {
        sprintf(field, "%svalue-%d-of-long%d", value == 0 ? "\t" : ",", value, number);
        put(file, field);
    }
}

/* Attributes `from` to `to` of four: there is room for three. */
struct range { int from, to; };

static void put_rule(struct bytes *file, struct range range, char prefix, int number)
{
    char start[40];

    sprintf(start, "R\t1\t%c%d\t%s", prefix, number, one_in(2) ? "permit" : "deny");
    put(file, start);
    for (int i = range.from; i < range.to; i++)
        put_long_target(file, i);
    put(file, "\n");
}

/* Gives the place of the policy's name. */
static size_t put_start(struct bytes *file, struct range range, char prefix)
{
    char start[40];
    size_t name;

    file->length = 0;
    for (int i = range.from; i < range.to; i++)
        put_long_line(file, i);
    name = file->length + strlen("P\t0\t");
    sprintf(start, "P\t0\t%c\tfirst-applicable", prefix);
    put(file, start);
    for (int i = range.from; i < range.to; i++)
        put(file, "\t*");
    put(file, one_in(2) ? "\nO\tlog\tpermit\n" : "\n");
    return name;
}

/* Of both as they are, with this word; over all files' if it is refused. */
static size_t joined_length(const struct joining *joining)
{
    struct answer answer = ref_join(joining->first.bytes, joining->first.length, joining->second.bytes,
                                    joining->second.length, joining->word.bytes, joining->word.length, NULL, 0);
    return answer.number == 11 ? answer.second : FILE_BYTES + 1;
}

/* Rules of all values, whose names find the size. */
static void fill(struct joining *joining, struct range range, struct bytes *file, size_t size, int joined)
{
    char line[80];
    size_t length = joined_length(joining), least = strlen("R\t1\t\tdeny\n") + 2 * (size_t)joined;

    if (length > size)
        return;
    for (size_t lines = (size - length + least + NAME_BYTES - 1) / (least + NAME_BYTES); lines > 0; lines--) {
        size_t width = (size - length) / lines - least;
        length += least + width;
        sprintf(line, "R\t1\t%c%0*d\tdeny", file == &joining->first ? 'f' : 's', (int)width - 1, (int)lines);
        put(file, line);
        for (int i = range.from; i < range.to; i++)
            put(file, "\t*");
        put(file, "\n");
    }
}

void make_long_joining(struct joining *joining)
{
    static const struct range ranges[][2] = {
        {{0, 3}, {0, 3}}, {{0, 2}, {0, 3}}, {{0, 3}, {1, 3}}, {{0, 2}, {1, 3}}, {{1, 3}, {0, 2}},
    };
    const struct range *range = ranges[below(5)];
    size_t size = FILE_BYTES - 1 + below(3), left = 600;
    int second = 0, filled = one_in(2);

    make_word(&joining->word, 1);
    put_start(&joining->first, range[0], 'p');
    size_t name = put_start(&joining->second, range[1], 'q');
    /* shared attribute lines aside, joining adds few bytes: it need not be measured while there is much room */
    for (int rule = 0; joining->first.length + joining->second.length + 1000 < size || joined_length(joining) + left < size;
         rule++, second = one_in(2))
        put_rule(second ? &joining->second : &joining->first, range[second], second ? 'q' : 'p', rule);
    fill(joining, range[filled], filled ? &joining->second : &joining->first, size, 3);
    for (uint32_t more = one_in(4) ? below(8) : 0; more > 0; more--) /* up to much longer */
        put_rule(&joining->second, range[1], 'm', (int)more);
    if (one_in(4))
        joining->second.bytes[name] = one_in(2) ? 'P' : 'p'; /* a name of both */
    if (one_in(3))
        make_word(&joining->word, 0);
}

/* Field `number` of a line that has so many. */
static struct slice field_at(struct slice line, int number)
{
    struct slice field = {line.bytes, 0};

    for (; number > 0; number--)
        while (*field.bytes++ != '\t')
            ;
    while (field.bytes[field.length] != '\t' && field.bytes[field.length] != '\n')
        field.length++;
    return field;
}

static void put_slice(struct bytes *file, struct slice slice)
{
    replace(file, file->length, 0, slice.bytes, slice.length);
}

/* The length of the first of these lines, newline included. */
static size_t first_line(struct slice lines)
{
    return (size_t)((const uint8_t *)memchr(lines.bytes, '\n', lines.length) - lines.bytes) + 1;
}

static struct slice attribute_line(const struct policy *policy, int number)
{
    struct slice left = policy->attribute_lines;

    for (; number > 0; number--) {
        size_t length = first_line(left);
        left = (struct slice){left.bytes + length, left.length - length};
    }
    return (struct slice){left.bytes, first_line(left)};
}

/* The element's lines under another name, with these of its targets in this order. */
static void put_renamed(struct bytes *mate, const struct element *element, int number, int columns, const int *order)
{
    char name[20];
    size_t first = first_line(element->line);

    sprintf(name, "%c\t%d\tmate-%d\t", element->kind, element->depth, number);
    put(mate, name);
    put_slice(mate, field_at(element->line, 3));
    for (int i = 0; i < columns; i++) {
        put(mate, "\t");
        put_slice(mate, field_at(element->line, 4 + order[i]));
    }
    put(mate, "\n");
    put_slice(mate, (struct slice){element->line.bytes + first, element->line.length - first});
}

void make_mate(struct bytes *mate, const struct policy *policy)
{
    int order[ATTRIBUTES], columns = one_in(3) ? 1 + (int)below((uint32_t)policy->attributes) : policy->attributes;

    for (int i = 0; i < policy->attributes; i++) {
        int at = (int)below((uint32_t)i + 1);
        order[i] = order[at];
        order[at] = i;
    }
    mate->length = 0;
    for (int i = 0; i < columns; i++)
        put_slice(mate, attribute_line(policy, order[i]));
    for (int place = 0; place < policy->elements; place++)
        put_renamed(mate, &policy->element[place], place, columns, order);
}
