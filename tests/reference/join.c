/* C-20: two files as the children of a set named `joined`. */
#include "reference.h"

#include <stdlib.h>
#include <string.h>

enum { BOTH = 2 * ATTRIBUTES }; /* so many attributes there can be in two files */

/* The attributes of both files, and which of a file's own each one is: -1 where the file lacks it. */
struct columns { int count, own[2][BOTH]; };

static int attribute_named(const struct policy *policy, struct slice name)
{
    for (int i = 0; i < policy->attributes; i++)
        if (equal_names(policy->attribute[i].name, name))
            return i;
    return -1;
}

static int same_bytes(struct slice one, struct slice other)
{
    return one.length == other.length && memcmp(one.bytes, other.bytes, one.length) == 0;
}

/* The letter, and the values to the byte and in order; the name may be spelt otherwise. */
static int same_attribute(const struct attribute *one, const struct attribute *other)
{
    if (one->letter != other->letter || one->values != other->values)
        return 0;
    for (int value = 0; value < one->values; value++)
        if (!same_bytes(one->value[value], other->value[value]))
            return 0;
    return 1;
}

/* The second file's first line that differs from the first file's line of an equal name, or 0. */
static uint32_t other_attribute(const struct policy *first, const struct policy *second)
{
    for (int i = 0; i < second->attributes; i++) {
        int same = attribute_named(first, second->attribute[i].name);
        if (same >= 0 && !same_attribute(&first->attribute[same], &second->attribute[i]))
            return (uint32_t)i + 1; /* no other lines stand before it */
    }
    return 0;
}

static void find_columns(const struct policy *first, const struct policy *second, struct columns *columns)
{
    columns->count = 0;
    for (int i = 0; i < first->attributes; i++) {
        columns->own[0][columns->count] = i;
        columns->own[1][columns->count++] = attribute_named(second, first->attribute[i].name);
    }
    for (int i = 0; i < second->attributes; i++)
        if (attribute_named(first, second->attribute[i].name) < 0) {
            columns->own[0][columns->count] = -1;
            columns->own[1][columns->count++] = i;
        }
}

static int is_algorithm(struct slice word)
{
    for (int i = DENY_OVERRIDES; i <= ONLY_ONE_APPLICABLE; i++)
        if (same_bytes(word, (struct slice){(const uint8_t *)words[i].text, strlen(words[i].text)}))
            return 1;
    return 0;
}

/* Up to the first of these bytes, which is there. */
static struct slice up_to(struct slice text, const char *ends)
{
    struct slice start = {text.bytes, 0};

    while (strchr(ends, start.bytes[start.length]) == NULL)
        start.length++;
    return start;
}

/* What is behind the first of these bytes. */
static struct slice behind(struct slice text, const char *ends)
{
    size_t length = up_to(text, ends).length + 1;
    return (struct slice){text.bytes + length, text.length - length};
}

static void put_slice(struct text *text, struct slice slice)
{
    put_bytes(text, slice.bytes, slice.length);
}

/* The lines of the second file's own attributes, behind all of the first's. */
static void put_attributes(struct text *text, const struct policy *first, const struct policy *second)
{
    struct slice left = second->attribute_lines;

    put_slice(text, first->attribute_lines);
    for (int i = 0; i < second->attributes; i++, left = behind(left, "\n"))
        if (attribute_named(first, second->attribute[i].name) < 0) {
            put_slice(text, up_to(left, "\n"));
            put_string(text, "\n");
        }
}

/* The element's lines: one level deeper, with a target for each attribute of both files, and its obligations' as they are. */
static void put_element(struct text *text, const struct element *element, int attributes, const int own[BOTH])
{
    struct slice fields[4 + ATTRIBUTES], left = element->line;
    int count = 0;

    for (int more = 1; more; left = behind(left, "\t\n")) {
        fields[count] = up_to(left, "\t\n");
        more = fields[count].bytes[fields[count].length] == '\t';
        count++;
    }
    put_slice(text, fields[0]);
    put_string(text, "\t");
    put_number(text, element->depth + 1);
    for (int i = 2; i < 4; i++) {
        put_string(text, "\t");
        put_slice(text, fields[i]);
    }
    for (int i = 0; i < attributes; i++) {
        put_string(text, "\t");
        if (own[i] < 0)
            put_string(text, "*");
        else
            put_slice(text, fields[4 + own[i]]);
    }
    put_string(text, "\n");
    put_slice(text, left);
}

struct answer ref_join(const uint8_t *first, size_t first_len, const uint8_t *second, size_t second_len, const uint8_t *word,
                       size_t word_len, uint8_t *out, size_t room)
{
    struct policy file[2], joined;
    struct columns columns;
    struct text text = {NULL, 0, 0};

    struct answer answer = read_policy(first, first_len, &file[0]);
    if (answer.number == 0)
        answer = read_policy(second, second_len, &file[1]);
    if (answer.number != 0)
        return answer;
    uint32_t line = other_attribute(&file[0], &file[1]);
    if (line > 0)
        return (struct answer){19, line};
    find_columns(&file[0], &file[1], &columns);
    if (!is_algorithm((struct slice){word, word_len}))
        return (struct answer){7, (uint32_t)columns.count + 1};

    put_attributes(&text, &file[0], &file[1]);
    put_string(&text, "S\t0\tjoined\t");
    put_bytes(&text, word, word_len);
    for (int i = 0; i < columns.count; i++)
        put_string(&text, "\t*");
    put_string(&text, "\n");
    for (int i = 0; i < 2; i++)
        for (int place = 0; place < file[i].elements; place++)
            put_element(&text, &file[i].element[place], columns.count, columns.own[i]);
    answer = read_policy(text.bytes, text.length, &joined);
    if (answer.number == 0)
        return lend_text(&text, out, room);
    free(text.bytes);
    return answer;
}
