/* Reading policy files. */
#include "plain_names.h"
#include "plain_policy.h"

#include <string.h>

enum { NAME = 1, OTHER = 2, TAB = 4, NEWLINE = 8 }; /* kinds of bytes; the rest stand in no file */

#define N NAME
#define O OTHER
static const uint8_t kind_of[256] = {
    0, 0, 0, 0, 0, 0, 0, 0, 0, TAB, NEWLINE, 0, 0, 0, 0, 0,
    0, 0, 0, 0, 0, 0, 0, 0, 0, 0, 0, 0, 0, 0, 0, 0,
    0, O, O, O, O, O, O, O, O, O, O, O, O, N, O, O,
    N, N, N, N, N, N, N, N, N, N, O, O, O, O, O, O,
    O, N, N, N, N, N, N, N, N, N, N, N, N, N, N, N,
    N, N, N, N, N, N, N, N, N, N, N, O, O, O, O, O,
    O, N, N, N, N, N, N, N, N, N, N, N, N, N, N, N,
    N, N, N, N, N, N, N, N, N, N, N, O, O, O, O, 0,
};
#undef N
#undef O

enum { KEPT_FIELDS = 2 + VALUES };

struct line {
    unsigned fields;
    unsigned bad_names; /* bit i: field i is no name; all fields behind those kept share the last bit */
    const uint8_t *field[KEPT_FIELDS];
    size_t length[KEPT_FIELDS];
};

/* Splits a line into fields; gives the start of the next one, or NULL. The zero behind the text stops it too. */
static const uint8_t *split(struct line *line, const uint8_t *at)
{
    unsigned kind, fields = 0;

    line->bad_names = 0;
    do {
        const uint8_t *start = at;
        unsigned seen = 0;
        while ((kind = kind_of[*at]) & (NAME | OTHER)) {
            seen |= kind;
            at++;
        }
        if (kind == 0 || at == start)
            return NULL;
        size_t length = (size_t)(at - start);
        if ((seen & OTHER) || length > NAME_BYTES || *start == '-')
            line->bad_names |= 1u << (fields < KEPT_FIELDS ? fields : KEPT_FIELDS);
        if (fields < KEPT_FIELDS) {
            line->field[fields] = start;
            line->length[fields] = length;
        }
        fields++;
        at++;
    } while (kind == TAB);
    line->fields = fields;
    return at;
}

/* Whether a value stands twice on a line of more values than are kept. Such a line is refused in any case, but an
 * attacker may send thousands: hence the table. */
static bool repeats_value(const struct line *line)
{
    uint16_t slots[FILE_BYTES] = {0}; /* twice as many as there can be values */
    const uint8_t *base = line->field[0], *at = line->field[2];

    for (unsigned left = line->fields - 2; left > 0; left--) {
        size_t length = 0;
        while (kind_of[at[length]] & NAME)
            length++;
        struct name name = folded(load_name(at, length));
        size_t slot = ((name.half[0] * 31 + name.half[1]) * 0x9e3779b97f4a7c15u) >> 50;
        for (; slots[slot] != 0; slot = (slot + 1) % FILE_BYTES) {
            const uint8_t *earlier = base + slots[slot];
            if (same(folded(load_name(earlier, length)), name) && !(kind_of[earlier[length]] & NAME))
                return true;
        }
        slots[slot] = (uint16_t)(at - base);
        at += length + 1;
    }
    return false;
}

static unsigned read_attribute(struct policy *policy, const struct line *line)
{
    if (line->fields < 3)
        return 2;
    if (line->bad_names & ~1u)
        return 3;

    bool sets = *line->field[0] == 'M';
    struct attribute attribute = {.name = folded(load_name(line->field[1], line->length[1])),
                                  .name_length = (uint8_t)line->length[1], .sets = sets};
    unsigned values = line->fields - 2;
    for (unsigned i = 0; i < policy->attributes; i++)
        if (same(attribute.name, policy->attribute[i].name))
            return 4;
    for (unsigned i = 0; i < values && values <= VALUES; i++) {
        attribute.spelled[i] = load_name(line->field[2 + i], line->length[2 + i]);
        attribute.value[i] = folded(attribute.spelled[i]);
        attribute.length[i] = (uint8_t)line->length[2 + i];
        if (among(attribute.value[i], attribute.value, i))
            return 4;
    }
    if (values > VALUES)
        return repeats_value(line) ? 4 : 5;
    unsigned count = sets ? (1u << values) - 1 : values; /* the sets of 13 values alone exceed the space */
    if (policy->attributes == ATTRIBUTES || policy->space * count > SPACE)
        return 5;
    if (policy->elements > 0)
        return 6;
    attribute.values = (uint8_t)values;
    attribute.count = (uint16_t)count;
    policy->space *= count;
    policy->attribute[policy->attributes++] = attribute;
    return 0;
}

unsigned plain_word_of(const uint8_t *field, size_t length, uint8_t kind)
{
    static const struct { const char *text; size_t length; } words[WORDS] = {
        {"permit", 6}, {"deny", 4}, {"deny-overrides", 14}, {"permit-overrides", 16}, {"first-applicable", 16},
        {"only-one-applicable", 19},
    };
    unsigned word = kind == 'R' ? EFFECT_PERMIT : DENY_OVERRIDES;
    unsigned end = kind == 'R' ? DENY_OVERRIDES : kind == 'P' ? ONLY_ONE_APPLICABLE : WORDS;

    for (; word < end; word++)
        if (words[word].length == length && memcmp(words[word].text, field, length) == 0)
            return word;
    return WORDS;
}

/* The mask of a target field; 0 if it is bad. A value can only match whole: name bytes end where the field ends. */
static uint16_t target_of(const struct attribute *attribute, const uint8_t *at, size_t length)
{
    const uint8_t *end = at + length;
    unsigned mask = 0, all = (1u << attribute->values) - 1;

    if (length == 1 && *at == '*')
        return (uint16_t)all;
    for (unsigned value = 0; value < attribute->values; value++) {
        size_t bytes = attribute->length[value];
        if (!same(load_name(at, bytes), attribute->spelled[value]) || (at[bytes] != ',' && at + bytes != end))
            continue;
        mask |= 1u << value;
        at += bytes;
        if (at == end)
            return mask == all ? 0 : (uint16_t)mask;
        at++;
    }
    return 0;
}

struct path { unsigned depth; uint8_t place[8]; }; /* the element before and those above it, by depth */

/* Depth, place and parent. */
static bool place(struct policy *policy, struct element *element, const struct line *line, struct path *path)
{
    unsigned depth = (unsigned)*line->field[1] - '0';

    if (policy->attributes == 0 || line->length[1] != 1 || depth > 7 || (depth == 0) != (policy->elements == 0))
        return false;
    if (depth == 0 ? element->kind == 'R' : depth > path->depth + 1)
        return false;
    if (depth > 0) {
        element->parent = path->place[depth - 1];
        if (policy->element[element->parent].kind != (element->kind == 'R' ? 'P' : 'S'))
            return false;
    }
    path->depth = depth;
    path->place[depth] = (uint8_t)policy->elements;
    return true;
}

static unsigned read_element(struct policy *policy, const struct line *line, const uint8_t *end, struct path *path)
{
    struct element new = {.kind = *line->field[0], .target = {1, 1, 1, 1, 1, 1, 1, 1}};

    if (line->fields != 4 + policy->attributes)
        return 2;
    if (line->bad_names & 1u << 2)
        return 3;
    struct name spelled = load_name(line->field[2], line->length[2]), name = folded(spelled);
    if (among(name, policy->name, policy->elements))
        return 4;
    if (policy->elements == ELEMENTS)
        return 5;
    if (!place(policy, &new, line, path))
        return 6;
    new.word = (uint8_t)plain_word_of(line->field[3], line->length[3], new.kind);
    if (new.word == WORDS)
        return 7;
    for (unsigned i = 0; i < policy->attributes; i++) {
        new.target[i] = target_of(&policy->attribute[i], line->field[4 + i], line->length[4 + i]);
        if (new.target[i] == 0)
            return 8;
        if (policy->elements > 0 && !policy->attribute[i].sets)
            new.target[i] &= policy->element[new.parent].target[i];
    }
    new.length = (uint8_t)line->length[2];
    memcpy(new.label, &spelled, NAME_BYTES);
    new.label[new.length] = ',';
    new.line = (uint16_t)(line->field[0] - policy->text);
    new.line_length = (uint16_t)(end - line->field[0]);
    policy->name[policy->elements] = name;
    policy->element[policy->elements++] = new;
    return 0;
}

/* Behind the last element and its obligations, which a rule has none of. */
static unsigned read_obligation(struct policy *policy, const struct line *line, const uint8_t *end)
{
    unsigned last = policy->elements - 1, before = 0; /* no obligation is there before an element */

    if (line->fields != 3)
        return 2;
    if (line->bad_names & 1u << 1)
        return 3;
    struct obligation new = {.place = (uint8_t)last, .length = (uint8_t)(line->length[1] + 1)};
    struct name spelled = load_name(line->field[1], line->length[1]), name = folded(spelled);
    for (unsigned i = policy->obligations; i > 0 && policy->obligation[i - 1].place == last; i--, before++)
        if (same(name, policy->obligation[i - 1].name))
            return 4;
    if (policy->elements == 0 || policy->element[last].kind == 'R' || before == OBLIGATIONS)
        return 14;
    unsigned word = plain_word_of(line->field[2], line->length[2], 'R');
    if (word == WORDS)
        return 7;
    new.word = (uint8_t)word;
    new.name = name;
    memcpy(new.label, &spelled, NAME_BYTES);
    new.label[new.length - 1] = '\n';
    policy->element[last].line_length = (uint16_t)(policy->element[last].line_length + (end - line->field[0]));
    policy->obligation[policy->obligations++] = new;
    return 0;
}

jogimaduve_answer plain_read_policy(struct policy *policy, const uint8_t *file, size_t length)
{
    struct path path = {0, {0}};
    struct line line;

    policy->attributes = policy->elements = policy->obligations = 0;
    policy->space = 1;
    if (length > FILE_BYTES)
        return (jogimaduve_answer){1, 0};
    memcpy(policy->text, file, length);
    memset(policy->text + length, 0, 2 * NAME_BYTES);

    const uint8_t *at = policy->text, *end = at + length;
    for (uint32_t number = 1; at < end; number++) {
        const uint8_t *next = split(&line, at);
        unsigned refusal = 2;
        if (next != NULL && line.length[0] == 1) {
            if (*at == 'A' || *at == 'M')
                refusal = read_attribute(policy, &line);
            else if (*at == 'S' || *at == 'P' || *at == 'R')
                refusal = read_element(policy, &line, next, &path);
            else if (*at == 'O')
                refusal = read_obligation(policy, &line, next);
        }
        if (refusal != 0)
            return (jogimaduve_answer){refusal, number};
        at = next;
    }
    return (jogimaduve_answer){policy->elements == 0 ? 9 : 0, 0};
}
