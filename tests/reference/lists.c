/* Lists for the writer, good and bad: the elements of a generated file, then damaged. */
#include "generate.h"

#include <stdio.h>
#include <string.h>

struct answer write_to(const struct list *list, uint8_t *out, size_t room)
{
    struct slice lines = {list->lines.bytes, list->lines.length};
    for (size_t i = 0; i < room; i++)
        out[i] = (uint8_t)(i % 251);
    return ref_write(lines, list->record, list->elements, out, room);
}

/* A good list: the elements of a file that reading accepts, mostly a small one. 0 if it is not written as that file. */
static int make_good(struct list *list)
{
    static struct bytes file;
    static uint8_t out[FILE_BYTES];
    struct policy policy;
    int edge = one_in(16);
    uint32_t most = one_in(16) ? ELEMENTS : 2 + below(9);

    do {
        if (edge)
            make_edge_file(&file);
        else
            make_file(&file);
    } while (read_policy(file.bytes, file.length, &policy).number != 0 || (!edge && (uint32_t)policy.elements > most));

    list->lines.length = 0;
    replace(&list->lines, 0, 0, policy.attribute_lines.bytes, policy.attribute_lines.length);
    list->attributes = policy.attributes;
    for (int i = 0; i < policy.attributes; i++)
        list->values[i] = policy.attribute[i].values;
    list->elements = (size_t)policy.elements;
    for (int place = 0; place < policy.elements; place++) {
        const struct element *element = &policy.element[place];
        struct record *record = &list->record[place];
        *record = (struct record){.kind = element->kind, .depth = (uint8_t)element->depth,
                                  .length = (uint8_t)element->name.length, .word = element->word};
        memcpy(record->name, element->name.bytes, element->name.length);
        for (int i = 0; i < ATTRIBUTES; i++)
            record->mask[i] = (uint16_t)element->target[i];
        record->obligations = (uint8_t)element->obligations;
        for (int i = 0; i < element->obligations; i++) {
            const struct obligation *obligation = &element->obligation[i];
            record->place[i].length = (uint8_t)obligation->name.length;
            record->place[i].word = obligation->word;
            memcpy(record->place[i].name, obligation->name.bytes, obligation->name.length);
        }
    }
    struct answer answer = write_to(list, out, sizeof out);
    return answer.number == 0 && answer.second == file.length && memcmp(out, file.bytes, file.length) == 0;
}

static struct record *pick(struct list *list)
{
    return &list->record[below((uint32_t)list->elements)];
}

static void name_as(struct record *record, const char *word, size_t number)
{
    memset(record->name, 0, sizeof record->name);
    record->length = (uint8_t)snprintf((char *)record->name, NAME_BYTES, "%s-%lu", word, (unsigned long)number);
}

/* A tree line or an obligation behind some of the attribute lines: good for a file, or refused by one of the tests. */
static void damage_lines_by_tree(struct list *list)
{
    static const char *const starts[] = {
        "P\t0\troot\tfirst-applicable", "S\t0\tr\tonly-one-applicable", "P\t0\tp\tonly-one-applicable",
        "R\t1\tr\tpermit", "S\t0\tro_t\tdeny-overrides",
    };
    static const char *const obligations[] = {
        "O\tlog\tpermit\n", "O\tlog\tno\n", "O\tl_g\tno\n", "O\tlog\n",
    };
    static struct bytes line;
    uint32_t before = one_in(2) ? (uint32_t)list->attributes : below((uint32_t)list->attributes), lines = 0;
    size_t at = 0;
    while (at < list->lines.length && lines < before)
        lines += list->lines.bytes[at++] == '\n';
    line.length = 0;
    if (one_in(3)) {
        put(&line, obligations[below(one_in(2) ? 1 : 4)]);
    } else {
        put(&line, starts[below(one_in(2) ? 2 : 5)]);
        for (uint32_t targets = before + (uint32_t)one_in(8); targets > 0; targets--)
            put(&line, one_in(8) ? "\t~" : "\t*");
        put(&line, "\n");
    }
    replace(&list->lines, at, 0, line.bytes, line.length);
}

static void damage_name(struct record *record)
{
    static const uint8_t lengths[] = {0, 17, 16, 255, 1};
    uint8_t byte = one_in(2) ? byte_beside_letters() : tricky_byte();

    switch (below(6)) {
    case 0: record->length = lengths[below(sizeof lengths)]; break;
    case 1: record->length--; break; /* a byte behind the name, or no name */
    case 2: record->length++; break; /* a zero byte in it, or 17 bytes */
    case 3: record->name[below(record->length) % NAME_BYTES] = byte; break;
    case 4: record->name[NAME_BYTES - 1 - below(4)] = byte; break; /* behind it, if it is not so long */
    default: record->name[0] = '-'; break;
    }
}

static void damage_mask(const struct list *list, struct record *record)
{
    uint32_t i = below((uint32_t)list->attributes), high = 1u << list->values[i];

    switch (below(5)) {
    case 0: record->mask[i] = 0; break;
    case 1: record->mask[i] = (uint16_t)(high - 1); break; /* all values: good */
    case 2: record->mask[i] |= (uint16_t)(one_in(2) ? high : 0x8000); break;
    case 3: record->mask[i] = (uint16_t)(1 + below(high)); break;
    default: record->mask[list->attributes % ATTRIBUTES] |= (uint16_t)(one_in(2) ? 1 : 0x8000); break; /* behind */
    }
}

/* More elements like the last one, up to 64, 65 or 66. */
static void lengthen(struct list *list)
{
    size_t size = ELEMENTS + below(3);
    uint8_t depth = (uint8_t)below(10);

    while (list->elements < size) {
        struct record *record = &list->record[list->elements];
        *record = record[-1];
        if (record->depth == 0) { /* below the first element */
            record->kind = record->kind == 'S' ? 'P' : 'R';
            record->depth = 1;
            record->word = record->kind == 'R' ? EFFECT_DENY : DENY_OVERRIDES;
            if (record->kind == 'R') {
                record->obligations = 0;
                memset(record->place, 0, sizeof record->place);
            }
        }
        name_as(record, "more", list->elements++);
    }
    if (one_in(3)) /* a bad one near the end, too */
        list->record[size - 1 - below(3)].depth = depth;
}

/* Sets, each below the one before, down to depth 7 or 8. */
static void deepen(struct list *list)
{
    list->elements = 8 + below(2);
    for (size_t i = 0; i < list->elements; i++) {
        list->record[i] = list->record[0]; /* for its masks */
        list->record[i].kind = 'S';
        list->record[i].depth = (uint8_t)i;
        list->record[i].word = DENY_OVERRIDES;
        name_as(&list->record[i], "set", i);
    }
}

/* Equal but for case; another spelling if these are one. */
static void name_alike(struct record *one, struct record *other)
{
    uint8_t name[NAME_BYTES] = {0};
    size_t length = other->length;

    if (length > NAME_BYTES)
        return;
    make_equal(other->name, name, &length);
    memcpy(one->name, name, NAME_BYTES);
    one->length = other->length = (uint8_t)length;
}

static void damage_order(struct list *list)
{
    struct record *one = pick(list), *other = pick(list), kept = *one;

    switch (below(6)) {
    case 0: *one = *other; break; /* a double name, if these are two */
    case 1: *one = *other; *other = kept; break;
    case 2:
        memmove(one, one + 1, (size_t)(list->record + list->elements - one - 1) * sizeof *one);
        list->elements--;
        break;
    case 3: memcpy(one->name, other->name, NAME_BYTES); one->length = other->length; break;
    default: name_alike(one, other); break;
    }
}

static void damage_list(struct list *list)
{
    static const char kinds[] = "SPR";
    uint32_t way = below(40);
    struct record *one = pick(list);

    if (way < 5)
        damage(&list->lines);
    else if (way < 8)
        damage_lines_by_tree(list);
    else if (way < 10 || list->elements == 0) { /* no lines or no elements, or neither */
        list->lines.length = one_in(2) ? 0 : list->lines.length;
        list->elements = one_in(2) ? 0 : list->elements;
    } else if (way < 12)
        damage_name(one);
    else if (way < 17)
        damage_order(list);
    else if (way < 20)
        lengthen(list);
    else if (way == 20)
        deepen(list);
    else if (way == 21)
        one->depth = (uint8_t)(one_in(4) ? 255 : below(9));
    else if (way == 22)
        one->kind = kinds[below(3)];
    else if (way < 26)
        one->word = (enum word)below(WORDS);
    else if (way < 30)
        damage_mask(list, one);
    else if (way < 32)
        damage_case(&list->lines);
    else
        damage_places(list, one);
}

/* Some bytes more in names: the file comes near 16,384 bytes, or exceeds them. */
static void lengthen_names(struct list *list)
{
    for (uint32_t i = 1 + below(4); i > 0; i--) {
        struct record *record = pick(list);
        if (record->length < NAME_BYTES)
            record->name[record->length++] = '-';
    }
}

int make_list(struct list *list, uint64_t seed)
{
    static uint8_t out[FILE_BYTES];
    start_random(seed);
    int written = make_good(list);
    if (list->elements > 40 && !one_in(3))
        lengthen_names(list);
    else if (!one_in(5))
        for (uint32_t i = 1 + below(one_in(3) ? 3 : 1); i > 0; i--)
            damage_list(list);

    struct answer answer = write_to(list, out, sizeof out);
    uint32_t needed = answer.number == 0 ? answer.second : 200, more = below(300), less = below(needed);
    size_t rooms[] = {needed, needed - 1, needed + 1, needed + more, less, 0};
    list->room = rooms[below(6)];
    return written;
}
