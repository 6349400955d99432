/* Writing a policy file: the attribute lines as bytes, and a list of elements. */
#include "reference.h"

#include <stdlib.h>
#include <string.h>

/* The attribute lines are tested as a file's lines are, but that a tree line among them, were it ever so good, is 6.
 * No other element stands before the first tree line, so of its tests only 2 and 3 come before 6. An obligation that stands
 * before any is 14. */
static struct answer read_attribute_lines(struct slice lines, struct policy *policy)
{
    struct answer answer = read_policy(lines.bytes, lines.length, policy);

    if (policy->elements > 0)
        return (struct answer){6, (uint32_t)policy->attributes + 1};
    if (answer.number == 9)
        return (struct answer){0, 0};
    if (answer.number == 7 || answer.number == 8)
        answer.number = 6;
    return answer;
}

static int zero_from(const uint8_t name[NAME_BYTES], int length)
{
    for (int i = length; i < NAME_BYTES; i++)
        if (name[i] != 0)
            return 0;
    return 1;
}

/* The name in its place, or an empty one, which is none, if its length is bad or other bytes than zeros stand behind it. */
static struct slice name_in(const uint8_t name[NAME_BYTES], uint8_t length)
{
    if (length > NAME_BYTES || !zero_from(name, length))
        return (struct slice){name, 0};
    return (struct slice){name, length};
}

static int bad_unused(const struct record *record)
{
    for (int i = record->obligations; i < OBLIGATIONS; i++) {
        const struct place *place = &record->place[i];
        if (!zero_from(place->name, 0) || place->length != 0 || place->word != EFFECT_PERMIT)
            return 1;
    }
    return 0;
}

/* All values of an attribute, be it an A or an M; there are none behind the last attribute. */
static unsigned all_values(const struct policy *policy, int attribute)
{
    return (1u << policy->attribute[attribute].values) - 1;
}

static int bad_mask(const struct policy *policy, int attribute, unsigned mask)
{
    return (attribute < policy->attributes && mask == 0) || (mask & ~all_values(policy, attribute)) != 0;
}

/* The lowest of 3 to 8 that an element is refused with, its obligations aside, behind those of the policy; 0 if none. */
static uint32_t test_record(const struct policy *policy, const struct record *record)
{
    if (!is_name(name_in(record->name, record->length)) || bad_unused(record))
        return 3;
    for (int i = 0; i < policy->elements; i++)
        if (equal_names(policy->element[i].name, (struct slice){record->name, record->length}))
            return 4;
    if (policy->elements == ELEMENTS)
        return 5;
    if (record->depth > 7 || !well_placed(policy, record->kind, record->depth, parent_of(policy, record->depth)))
        return 6;
    if (!strchr(words[record->word].kinds, record->kind))
        return 7;
    for (int i = 0; i < ATTRIBUTES; i++)
        if (bad_mask(policy, i, record->mask[i]))
            return 8;
    return 0;
}

/* Tests an element and its obligations line by line, counting them; a good one joins the policy. */
static uint32_t add_record(struct policy *policy, const struct record *record, uint32_t *line)
{
    char before = record->kind;

    ++*line;
    uint32_t refusal = test_record(policy, record);
    if (refusal != 0)
        return refusal;
    policy->element[policy->elements++] = (struct element){
        .kind = record->kind, .depth = record->depth, .name = {record->name, record->length}};
    for (int i = 0; i < record->obligations; i++, before = 'O') {
        ++*line;
        if (i == OBLIGATIONS)
            return 14; /* the record has no place for a third */
        const struct place *place = &record->place[i];
        refusal = add_obligation(policy, before, name_in(place->name, place->length), place->word);
        if (refusal != 0)
            return refusal;
    }
    return 0;
}

static void put_target(struct text *text, const struct policy *policy, int attribute, unsigned mask)
{
    const char *before = "";

    if (mask == all_values(policy, attribute)) {
        put_string(text, "*");
        return;
    }
    for (int value = 0; value < policy->attribute[attribute].values; value++)
        if (mask >> value & 1) {
            struct slice name = policy->attribute[attribute].value[value];
            put_string(text, before);
            put_bytes(text, name.bytes, name.length);
            before = ",";
        }
}

static void put_lines(struct text *text, const struct policy *policy, const struct record *record)
{
    char start[] = {record->kind, '\t', (char)('0' + record->depth), '\t'};

    put_bytes(text, start, sizeof start);
    put_bytes(text, record->name, record->length);
    put_string(text, "\t");
    put_string(text, words[record->word].text);
    for (int i = 0; i < policy->attributes; i++) {
        put_string(text, "\t");
        put_target(text, policy, i, record->mask[i]);
    }
    put_string(text, "\n");
    for (int i = 0; i < record->obligations; i++) {
        put_string(text, "O\t");
        put_bytes(text, record->place[i].name, record->place[i].length);
        put_string(text, "\t");
        put_string(text, words[record->place[i].word].text);
        put_string(text, "\n");
    }
}

struct answer ref_write(struct slice lines, const struct record *list, size_t elements, uint8_t *out, size_t room)
{
    struct policy policy;
    struct text text = {NULL, 0, 0};

    struct answer answer = read_attribute_lines(lines, &policy);
    if (answer.number != 0)
        return answer;
    uint32_t line = (uint32_t)policy.attributes;
    for (size_t i = 0; i < elements; i++) {
        uint32_t refusal = add_record(&policy, &list[i], &line);
        if (refusal != 0)
            return (struct answer){refusal, line};
    }
    if (elements == 0)
        return (struct answer){9, 0};
    put_bytes(&text, lines.bytes, lines.length);
    for (size_t i = 0; i < elements; i++)
        put_lines(&text, &policy, &list[i]);
    if (text.length > FILE_BYTES) {
        free(text.bytes);
        return (struct answer){1, 0};
    }
    return lend_text(&text, out, room);
}
