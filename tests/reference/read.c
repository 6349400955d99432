/* Reading a policy file: the tests 1 to 9 and 14. */
#include "reference.h"

#include <string.h>

/* Fields hold at least one byte, and a tab or the newline stands behind each. */
struct fields {
    size_t count;
    struct slice field[FILE_BYTES / 2];
};

const struct word_text words[WORDS] = {
    [EFFECT_PERMIT] = {"permit", "R"},
    [EFFECT_DENY] = {"deny", "R"},
    [DENY_OVERRIDES] = {"deny-overrides", "SP"},
    [PERMIT_OVERRIDES] = {"permit-overrides", "SP"},
    [FIRST_APPLICABLE] = {"first-applicable", "SP"},
    [ONLY_ONE_APPLICABLE] = {"only-one-applicable", "S"},
};

static int same(struct slice a, struct slice b)
{
    return a.length == b.length && memcmp(a.bytes, b.bytes, a.length) == 0;
}

static uint8_t small_letter(uint8_t byte)
{
    return byte >= 'A' && byte <= 'Z' ? (uint8_t)(byte - 'A' + 'a') : byte;
}

int equal_names(struct slice a, struct slice b)
{
    if (a.length != b.length)
        return 0;
    for (size_t i = 0; i < a.length; i++)
        if (small_letter(a.bytes[i]) != small_letter(b.bytes[i]))
            return 0;
    return 1;
}

static int is(struct slice field, const char *text)
{
    return field.length == strlen(text) && memcmp(field.bytes, text, field.length) == 0;
}

int is_name(struct slice field)
{
    if (field.length < 1 || field.length > NAME_BYTES || field.bytes[0] == '-')
        return 0;
    for (size_t i = 0; i < field.length; i++) {
        uint8_t byte = field.bytes[i];
        int letter = (byte >= 'a' && byte <= 'z') || (byte >= 'A' && byte <= 'Z');
        if (!letter && !(byte >= '0' && byte <= '9') && byte != '-')
            return 0;
    }
    return 1;
}

int value_number(const struct attribute *attribute, struct slice name)
{
    for (int value = 0; value < attribute->values; value++)
        if (equal_names(attribute->value[value], name))
            return value;
    return -1;
}

/* Takes the fields of a line (its newline left out); 0 if a field is empty, as the only one of an empty line is, or
 * holds another byte than 33 to 126. */
static int take_fields(struct slice line, struct fields *fields)
{
    size_t start = 0;
    fields->count = 0;
    for (size_t i = 0; i <= line.length; i++) {
        if (i < line.length && line.bytes[i] != '\t') {
            if (line.bytes[i] < 33 || line.bytes[i] > 126)
                return 0;
            continue;
        }
        if (i == start)
            return 0;
        fields->field[fields->count++] = (struct slice){line.bytes + start, i - start};
        start = i + 1;
    }
    return 1;
}

/* What an attribute counts in the space: an M has a request for each set of its values but the empty one. */
static int count_of(char letter, int values)
{
    return letter == 'M' ? (1 << values) - 1 : values;
}

/* The tests 3 to 6 of an attribute line; a good one joins the policy. */
static uint32_t read_attribute(struct policy *policy, const struct fields *fields)
{
    const struct slice *name = &fields->field[1], *value = &fields->field[2];
    char letter = (char)fields->field[0].bytes[0];
    size_t values = fields->count - 2, most = letter == 'M' ? SET_VALUES : VALUES;

    for (size_t i = 1; i < fields->count; i++)
        if (!is_name(fields->field[i]))
            return 3;
    for (int i = 0; i < policy->attributes; i++)
        if (equal_names(policy->attribute[i].name, *name))
            return 4;
    /* All values are looked at here, also those that are too many: 4 is lower than 5. */
    for (size_t later = 1; later < values; later++)
        for (size_t earlier = 0; earlier < later; earlier++)
            if (equal_names(value[earlier], value[later]))
                return 4;
    if (policy->attributes == ATTRIBUTES || values > most)
        return 5;
    int count = count_of(letter, (int)values);
    if (policy->space * count > SPACE)
        return 5;
    if (policy->elements > 0)
        return 6;

    struct attribute *attribute = &policy->attribute[policy->attributes++];
    attribute->letter = letter;
    attribute->name = *name;
    attribute->values = (int)values;
    memcpy(attribute->value, value, values * sizeof *value);
    attribute->count = count;
    policy->space *= count;
    return 0;
}

/* One digit 0 to 7, or -1. */
static int depth_of(struct slice field)
{
    return field.length == 1 && field.bytes[0] >= '0' && field.bytes[0] <= '7' ? field.bytes[0] - '0' : -1;
}

int parent_of(const struct policy *policy, int depth)
{
    for (int place = policy->elements - 1; place >= 0; place--)
        if (policy->element[place].depth == depth - 1)
            return place;
    return -1;
}

int well_placed(const struct policy *policy, char kind, int depth, int parent)
{
    if (policy->attributes == 0)
        return 0;
    if (policy->elements == 0)
        return depth == 0 && kind != 'R';
    if (depth < 1 || depth > policy->element[policy->elements - 1].depth + 1)
        return 0;
    return policy->element[parent].kind == (kind == 'R' ? 'P' : 'S');
}

/* The word allowed for this kind, or WORDS. */
static enum word word_of(struct slice field, char kind)
{
    for (int word = 0; word < WORDS; word++)
        if (is(field, words[word].text) && strchr(words[word].kinds, kind))
            return (enum word)word;
    return WORDS;
}

unsigned mask_of_list(const struct attribute *attribute, struct slice field, int spelt_alike)
{
    unsigned mask = 0;
    int lowest = 0; /* declared order, each once: the next value stands behind the one before */

    for (size_t start = 0, end; start <= field.length; start = end + 1) {
        for (end = start; end < field.length && field.bytes[end] != ','; end++)
            ;
        struct slice name = {field.bytes + start, end - start};
        int value = value_number(attribute, name);
        if (value < lowest || (spelt_alike && !same(attribute->value[value], name)))
            return 0;
        mask |= 1u << value;
        lowest = value + 1;
    }
    return mask;
}

/* The mask of a target field, or 0 for a bad one: no good target has an empty mask. */
static unsigned target_of(struct slice field, const struct attribute *attribute)
{
    unsigned all = (1u << attribute->values) - 1;

    if (is(field, "*"))
        return all;
    unsigned mask = mask_of_list(attribute, field, 1);
    return mask == all ? 0 : mask;
}

/* The tests 3 to 8 of a tree line; a good one joins the policy. */
static uint32_t read_element(struct policy *policy, const struct fields *fields, struct slice line)
{
    struct element element = {.kind = (char)fields->field[0].bytes[0], .name = fields->field[2], .line = line};

    if (!is_name(element.name))
        return 3;
    for (int i = 0; i < policy->elements; i++)
        if (equal_names(policy->element[i].name, element.name))
            return 4;
    if (policy->elements == ELEMENTS)
        return 5;
    element.depth = depth_of(fields->field[1]);
    element.parent = parent_of(policy, element.depth);
    if (!well_placed(policy, element.kind, element.depth, element.parent))
        return 6;
    element.word = word_of(fields->field[3], element.kind);
    if (element.word == WORDS)
        return 7;
    for (int i = 0; i < policy->attributes; i++) {
        element.target[i] = target_of(fields->field[4 + i], &policy->attribute[i]);
        if (element.target[i] == 0)
            return 8;
    }

    if (element.parent >= 0) {
        struct element *parent = &policy->element[element.parent];
        parent->child[parent->children++] = policy->elements;
    }
    policy->element[policy->elements++] = element;
    return 0;
}

/* The tests of an obligation's line, which then belongs to the last element's. */
static uint32_t read_obligation(struct policy *policy, const struct fields *fields, struct slice line)
{
    uint32_t refusal = add_obligation(policy, policy->before, fields->field[1], word_of(fields->field[2], 'R'));

    if (refusal == 0)
        policy->element[policy->elements - 1].line.length += line.length;
    return refusal;
}

/* The lowest number that a line (newline included, if there is one) is refused with, or 0. */
static uint32_t read_line(struct policy *policy, struct slice line)
{
    struct fields fields;

    if (line.bytes[line.length - 1] != '\n')
        return 2;
    if (!take_fields((struct slice){line.bytes, line.length - 1}, &fields))
        return 2;
    if (is(fields.field[0], "A") || is(fields.field[0], "M"))
        return fields.count < 3 ? 2 : read_attribute(policy, &fields);
    if (is(fields.field[0], "O"))
        return fields.count != 3 ? 2 : read_obligation(policy, &fields, line);
    if (!is(fields.field[0], "S") && !is(fields.field[0], "P") && !is(fields.field[0], "R"))
        return 2;
    if (fields.count != 4 + (size_t)policy->attributes)
        return 2;
    return read_element(policy, &fields, line);
}

struct answer read_policy(const uint8_t *file, size_t length, struct policy *policy)
{
    memset(policy, 0, sizeof *policy);
    policy->space = 1;
    if (length > FILE_BYTES)
        return (struct answer){1, 0};

    uint32_t number = 0;
    for (size_t start = 0, end; start < length; start = end) {
        for (end = start; end < length && file[end] != '\n'; end++)
            ;
        if (end < length)
            end++; /* the newline is part of its line */
        number++;
        uint32_t refusal = read_line(policy, (struct slice){file + start, end - start});
        if (refusal != 0)
            return (struct answer){refusal, number};
        policy->before = (char)file[start];
        if (policy->elements == 0)
            policy->attribute_lines = (struct slice){file, end};
    }
    return (struct answer){policy->elements == 0 ? 9 : 0, 0};
}
