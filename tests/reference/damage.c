/* Damages a file as text, so that nothing here relies on the reader under test. Some damage leaves a good file. */
#include "generate.h"

#include <stdio.h>
#include <string.h>

#define ONE_OF(strings) ((strings)[below(sizeof(strings) / sizeof *(strings))])

static const char *tricky(void)
{
    static const char *const strings[] = {
        "", "A", "M", "O", "S", "P", "R", "AA", "a", "0", "1", "2", "7", "8", "07", "-1", "*", "**", "x", "-x", "x-", "X", "~",
        "a,b", ",", "a,", ",a", "a_b", "a.b", "@x", "`x", "[", "{", "name-of-16-bytes", "Name-of-16-bytes",
        "name-of-17-bytes-", "permit", "deny",
    };
    return ONE_OF(strings);
}

uint8_t tricky_byte(void)
{
    static const char bytes[] = "\t\n ,*-~!@AZ[`az{09:/\r\x7f\x80\xff\x1f";
    return one_in(4) ? (uint8_t)below(256) : (uint8_t)bytes[below(sizeof bytes)]; /* the last is byte 0 */
}

/* Gives a tree line another target for its attribute `number`, most often a bad one. */
static void damage_target(struct bytes *file, uint32_t number)
{
    static struct bytes target;
    size_t line = 0, length = 0, at, count;

    /* Attribute lines come first, so line `number` is the attribute's. */
    for (uint32_t i = 0; i <= number && line < file->length; i++) {
        line += i > 0 ? length + 1 : 0;
        for (length = 0; line + length < file->length && file->bytes[line + length] != '\n'; length++)
            ;
    }
    if (line >= file->length || (file->bytes[line] != 'A' && file->bytes[line] != 'M'))
        return;
    int all = one_in(3);
    uint32_t values = count_values(file, line, length), value = below(values), pieces = all ? values : 1 + below(3);
    target.length = 0;
    for (uint32_t i = 0; i < pieces; i++) {
        at = field_of(file, line, length, 2 + (all ? i : value), &count);
        put(&target, i > 0 ? "," : "");
        replace(&target, target.length, 0, file->bytes + at, count);
        value = one_in(2) ? value : below(values); /* the same again, before or behind it */
    }
    if (one_in(8))
        put(&target, one_in(2) ? "," : ",*");
    if (one_in(16))
        replace(&target, 0, 0, ",", 1);
    at = pick_field(file, TREE_LINE, 4 + number, &count);
    replace(file, at, count, target.bytes, target.length);
}

/* More values on an attribute line, then perhaps a value for the second time or a bad one. */
static void damage_values(struct bytes *file)
{
    char value[24];
    size_t length, line = pick_line(file, ATTRIBUTE_LINE, &length), count;
    size_t last = field_of(file, line, length, 2 + below(4), &count);
    uint32_t more = below(18);

    if (one_in(2)) {
        replace(file, line + length, 0, file->bytes + last, count);
        if (one_in(2))
            turn_case(file->bytes + line + length, count);
        replace(file, line + length, 0, "\t", 1);
    } else if (one_in(3))
        replace(file, line + length, 0, "\tBad_", 5);
    for (uint32_t i = 0; i < more; i++) {
        sprintf(value, "\tmore%lu", (unsigned long)i);
        replace(file, line + length, 0, value, strlen(value));
    }
}

/* Another element instead of one, or behind it: good but for its place or parent. */
static void damage_place(struct bytes *file)
{
    static struct bytes element;
    char start[60];
    size_t length, ignored, line = pick_line(file, TREE_LINE, &length);
    size_t targets = field_of(file, line, length, 4, &ignored), depth = field_of(file, line, length, 1, &ignored);
    char kind = TREE_LINE[below(3)];
    int instead = one_in(4), deeper = instead ? 0 : (int)below(3);

    if (file->bytes[depth] < '0' || file->bytes[depth] > '7' || targets <= depth || line + length >= file->length)
        return;
    sprintf(start, "%c\t%c\tfresh%lu\t%s\t", kind, file->bytes[depth] + deeper, (unsigned long)below(1000),
            kind == 'R' ? "permit" : "deny-overrides");
    element.length = 0;
    put(&element, start);
    replace(&element, element.length, 0, file->bytes + targets, line + length + 1 - targets);
    replace(file, instead ? line : line + length + 1, instead ? length + 1 : 0, element.bytes, element.length);
}

static void damage_lines(struct bytes *file)
{
    static uint8_t kept[sizeof file->bytes];
    uint32_t way = below(3); /* twice, moved, left out */
    size_t length, other, line = pick_line(file, one_in(3) ? ATTRIBUTE_LINE : ANY_LINE, &length);

    length += line + length < file->length; /* its newline */
    memcpy(kept, file->bytes + line, length);
    if (way > 0)
        replace(file, line, length, "", 0);
    if (way < 2)
        replace(file, one_in(2) ? file->length : pick_line(file, ANY_LINE, &other), 0, kept, length);
}

size_t pick_name(const struct bytes *file, size_t *length)
{
    return one_in(2) ? pick_field(file, TREE_LINE, 2, length) : pick_field(file, ATTRIBUTE_LINE, 1 + below(3), length);
}

/* A name that stands elsewhere too, perhaps in other case. */
static void damage_name(struct bytes *file)
{
    uint8_t kept[32];
    size_t kept_length, length, from = pick_name(file, &kept_length);

    if (kept_length > sizeof kept)
        return;
    memcpy(kept, file->bytes + from, kept_length);
    if (one_in(2))
        turn_case(kept, kept_length);
    size_t at = pick_name(file, &length);
    replace(file, at, length, kept, kept_length);
}

void damage(struct bytes *file)
{
    static const char *const kinds[] = {"S", "P", "R", "A", "M", "S", "P", "R", "s", "B", "PP"};
    static const char *const depths[] = {
        "0", "1", "2", "3", "4", "5", "6", "7", "8", "8", "9", "07", "01", "11", "-1", "*",
    };
    static const char *const words[] = {
        "deny-overrides", "permit-overrides", "first-applicable", "only-one-applicable", "permit", "deny", "Deny",
        "only-one-applicabl", "permit-overridess", "indeterminate",
    };
    static const char *const more_lines[] = {
        "\n", "\t\n", "A\tanother\ta\tb\n", "A\ta\ta\n", "S\t0\troot\tdeny\t*\n", "x",
        "A\tanother\ta\tb\tc\td\te\tf\tg\th\ti\tj\tk\tl\tm\tn\to\tp\tq\n",
        "M\tanother\ta\tb\n", "M\tanother\ta\tb\tc\td\te\tf\tg\th\ti\tj\tk\tl\tm\n",
    };
    uint8_t byte = tricky_byte();
    uint32_t at = below((uint32_t)file->length);
    const char *string = tricky();
    size_t length, field;

    if (file->length == 0)
        return;
    switch (below(38)) {
    case 0: set_field(file, ANY_LINE, below(7), string); break;
    case 1: set_field(file, TREE_LINE, 2, string); break;
    case 2: set_field(file, ATTRIBUTE_LINE, 1 + below(4), string); break;
    case 3: case 4: damage_name(file); break;
    case 5: set_field(file, byte < 64 ? ANY_LINE : TREE_LINE, 0, ONE_OF(kinds)); break;
    case 6: case 7: set_field(file, TREE_LINE, 1, ONE_OF(depths)); break;
    case 8: case 9: set_field(file, TREE_LINE, 3, ONE_OF(words)); break;
    case 10: case 11: damage_target(file, below(one_in(2) ? 6 : 2)); break;
    case 12: damage_values(file); break;
    case 13: damage_lines(file); break;
    case 14: /* a field too few */
        field = pick_field(file, ANY_LINE, below(7), &length);
        replace(file, field, length + (field + length < file->length), "", 0);
        break;
    case 15: /* a field too many */
        field = pick_field(file, ANY_LINE, 1 + below(6), &length);
        replace(file, field, 0, "\t", 1);
        replace(file, field, 0, string, strlen(string));
        break;
    case 16: /* a byte other, more or less */
        if (one_in(3))
            replace(file, at, 1, "", 0);
        else
            replace(file, at, one_in(2), &byte, 1);
        break;
    case 17: file->length = one_in(2) ? file->length - 1 : one_in(3) ? 0 : at; break;
    case 18: put(file, ONE_OF(more_lines)); break;
    case 19: case 20: damage_place(file); break;
    case 21: /* to the size's edge */
        length = 16382 + below(6);
        while (file->length < length)
            file->bytes[file->length++] = '\n';
        break;
    case 22: case 23: case 24: case 25: case 26: damage_sets(file); break;
    case 27: case 28: case 29: case 30: case 31: damage_obligations(file); break;
    default: damage_case(file); break;
    }
}
