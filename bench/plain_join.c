/* Joining two files: both below a set named joined, over the attributes of both. */
#include "plain.h"
#include "plain_names.h"

#include <string.h>

enum { JOINED_ATTRIBUTES = 2 * ATTRIBUTES, LACKING = -1 };
enum { JOINED_LINE_BYTES = 64 }; /* room for the line of joined */
enum { JOINED_BYTES = 2 * FILE_BYTES + 2 * ELEMENTS * 2 * ATTRIBUTES + JOINED_LINE_BYTES }; /* room for any two files */

struct joining {
    unsigned attributes; /* of both, equal names once; more than six are refused later */
    bool own[ATTRIBUTES]; /* of the second: those that the first lacks */
    int place[2][JOINED_ATTRIBUTES]; /* by file: where it has a joined attribute, or LACKING */
};

static int find_attribute(const struct policy *policy, struct name name)
{
    for (unsigned i = 0; i < policy->attributes; i++)
        if (same(name, policy->attribute[i].name))
            return (int)i;
    return LACKING;
}

/* Letter, and values as spelled; places behind the last value are zero. */
static bool alike(const struct attribute *one, const struct attribute *other)
{
    return one->sets == other->sets && memcmp(one->spelled, other->spelled, sizeof one->spelled) == 0;
}

/* Gives the second file's first line that differs from the first's of equal name, or 0. */
static uint32_t join_attributes(struct joining *joining, const struct policy *first, const struct policy *second)
{
    joining->attributes = first->attributes;
    for (unsigned i = 0; i < JOINED_ATTRIBUTES; i++) {
        joining->place[0][i] = i < first->attributes ? (int)i : LACKING;
        joining->place[1][i] = LACKING;
    }
    for (unsigned i = 0; i < second->attributes; i++) {
        int place = find_attribute(first, second->attribute[i].name);
        joining->own[i] = place == LACKING;
        if (joining->own[i])
            place = (int)joining->attributes++;
        else if (!alike(&first->attribute[place], &second->attribute[i]))
            return i + 1;
        joining->place[1][place] = (int)i;
    }
    return 0;
}

static uint8_t *put(uint8_t *at, const void *bytes, size_t length)
{
    memcpy(at, bytes, length);
    return at + length;
}

static uint8_t *put_stars(uint8_t *at, unsigned count)
{
    for (; count > 0; count--)
        at = put(at, "\t*", 2);
    return at;
}

static uint8_t *put_attributes(uint8_t *at, const struct policy *first, const struct policy *second, const bool *own)
{
    const uint8_t *line = second->text, *end;

    at = put(at, first->text, first->element[0].line);
    for (unsigned i = 0; i < second->attributes; i++, line = end) {
        end = (const uint8_t *)memchr(line, '\n', FILE_BYTES) + 1;
        if (own[i])
            at = put(at, line, (size_t)(end - line));
    }
    return at;
}

/* Whether a file's attributes are the first of the joined ones, in its order: then stars go behind its targets. */
static bool in_order(const struct policy *policy, const int *place)
{
    for (unsigned i = 0; i < policy->attributes; i++)
        if (place[i] != (int)i)
            return false;
    return true;
}

/* An element's line up to its newline, which is given by `line`. The first target stands behind the fourth tab. */
static uint8_t *put_ordered(uint8_t *at, const struct element *element, const uint8_t **line, const int *place,
                            unsigned attributes)
{
    const uint8_t *field[ATTRIBUTES], *word = *line + 4 + element->length + 1;
    const uint8_t *end = memchr(word, '\t', FILE_BYTES);
    size_t length[ATTRIBUTES];

    at = put(at, *line, (size_t)(end - *line));
    for (unsigned i = 0; *end != '\n'; i++) { /* fields with the tab before them */
        field[i] = end++;
        while (*end > '\n')
            end++;
        length[i] = (size_t)(end - field[i]);
    }
    for (unsigned i = 0; i < attributes; i++)
        at = place[i] == LACKING ? put_stars(at, 1) : put(at, field[place[i]], length[place[i]]);
    *line = end;
    return at;
}

/* A file's elements with their obligations, each one deeper. Depth 7 becomes 8, which reading refuses. */
static uint8_t *put_elements(uint8_t *at, const struct policy *policy, const int *place, unsigned attributes)
{
    bool ordered = in_order(policy, place);

    for (unsigned i = 0; i < policy->elements; i++) {
        const struct element *element = &policy->element[i];
        const uint8_t *line = policy->text + element->line, *end = line + element->line_length;
        uint8_t *depth = at + 2;
        if (ordered) {
            const uint8_t *newline = memchr(line, '\n', element->line_length);
            at = put_stars(put(at, line, (size_t)(newline - line)), attributes - policy->attributes);
            line = newline;
        } else
            at = put_ordered(at, element, &line, place, attributes);
        ++*depth;
        at = put(at, line, (size_t)(end - line));
    }
    return at;
}

/* What reading the joined text would refuse, but for its length: attributes and elements, for all else was read. */
static jogimaduve_answer test_joined(const struct joining *joining, const struct policy policy[2])
{
    struct name names[ELEMENTS] = {given_name((const uint8_t *)"joined", 6)};
    unsigned attributes = policy[0].attributes, space = policy[0].space, elements = 1;
    uint32_t line = joining->attributes + 1;

    for (unsigned i = 0; i < policy[1].attributes; i++) {
        if (!joining->own[i])
            continue;
        space *= policy[1].attribute[i].count;
        if (++attributes > ATTRIBUTES || space > SPACE)
            return (jogimaduve_answer){5, attributes};
    }
    for (int file = 0; file < 2; file++)
        for (unsigned i = 0, obligations = 0; i < policy[file].elements; i++) {
            const struct element *element = &policy[file].element[i];
            line++;
            if (among(policy[file].name[i], names, elements))
                return (jogimaduve_answer){4, line};
            if (elements == ELEMENTS)
                return (jogimaduve_answer){5, line};
            if (policy[file].text[element->line + 2] == '7')
                return (jogimaduve_answer){6, line};
            names[elements++] = policy[file].name[i];
            for (; obligations < policy[file].obligations && policy[file].obligation[obligations].place == i; obligations++)
                line++;
        }
    return (jogimaduve_answer){0, 0};
}

jogimaduve_answer plain_join(const uint8_t *first, size_t first_length, const uint8_t *second, size_t second_length,
                             const uint8_t *word, size_t word_length, uint8_t *buffer, size_t buffer_length)
{
    struct policy policy[2];
    struct joining joining;
    uint8_t text[JOINED_BYTES], *at;

    jogimaduve_answer answer = plain_read_policy(&policy[0], first, first_length);
    if (answer.number == 0)
        answer = plain_read_policy(&policy[1], second, second_length);
    if (answer.number != 0)
        return answer;
    uint32_t differing = join_attributes(&joining, &policy[0], &policy[1]);
    if (differing != 0)
        return (jogimaduve_answer){19, differing};
    if (plain_word_of(word, word_length, 'S') == WORDS)
        return (jogimaduve_answer){7, joining.attributes + 1};

    at = put_attributes(text, &policy[0], &policy[1], joining.own);
    at = put(put(at, "S\t0\tjoined\t", 11), word, word_length);
    at = put(put_stars(at, joining.attributes), "\n", 1);
    for (int file = 0; file < 2; file++)
        at = put_elements(at, &policy[file], joining.place[file], joining.attributes);
    size_t length = (size_t)(at - text);
    if (length > FILE_BYTES)
        return (jogimaduve_answer){1, 0};
    answer = test_joined(&joining, policy);
    if (answer.number != 0)
        return answer;
    if (length > buffer_length)
        return (jogimaduve_answer){11, (uint32_t)length};
    memcpy(buffer, text, length);
    return (jogimaduve_answer){0, (uint32_t)length};
}
