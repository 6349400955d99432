/* Pairs of files to be joined, with a word: attributes that both have, in another order or spelling, or that differ; trees
 * with names of their own or shared; pairs on both sides of what a file can hold. */
#include "generate.h"

#include <stdio.h>
#include <string.h>

struct column { char letter, name[NAME_BYTES + 1]; int values; char value[VALUES + 1][NAME_BYTES + 1]; };

/* What is to be made of a file. */
struct plan {
    int attributes;
    struct column column[ATTRIBUTES];
    char prefix;            /* of its elements' names */
    int elements, deepest;  /* at most */
    int chain;              /* so many sets, each the only child of the one before, come first */
    int used;               /* the element with this number has the other file's name, or `joined` */
    char other[NAME_BYTES + 1];
};

/* Of `values` values, small ones or of 16 bytes. */
static void make_column(struct column *column, int number, char letter, int values, int longer)
{
    column->letter = letter;
    column->values = values;
    sprintf(column->name, longer ? "attribute-of-%03d" : "x%d", number);
    for (int value = 0; value < values; value++)
        sprintf(column->value[value], longer ? "value-%02d-of-long" : "v%d", value);
    if (one_in(3))
        spell(column->name, 1 + (int)below(SPELLINGS - 1));
}

/* Makes the column another that has the same name: letter, values, their order, their bytes. Seldom leaves it as it is. */
static void vary_column(struct column *column)
{
    uint32_t last = (uint32_t)column->values - 1, one = below(last + 1), other = one == 0 ? last : 0;
    char swapped[NAME_BYTES + 1], *value = column->value[one];
    size_t length = strlen(value);

    switch (below(10)) {
    case 0: case 1: column->letter = column->letter == 'A' ? 'M' : 'A'; break;
    case 2: strcpy(value, "other"); break;
    case 3: case 4: turn_case((uint8_t *)value, length); break;
    case 5:
        strcpy(swapped, value);
        strcpy(value, column->value[other]);
        strcpy(column->value[other], swapped);
        break;
    case 6: column->values -= last > 0; break;
    case 7: strcpy(column->value[column->values++], "more"); break;
    case 8: /* the same bytes, parted elsewhere */
        if (one == last || length == NAME_BYTES || strlen(column->value[one + 1]) == 1)
            break;
        value[length] = column->value[one + 1][0];
        value[length + 1] = 0;
        memmove(column->value[one + 1], column->value[one + 1] + 1, strlen(column->value[one + 1]));
        break;
    default: /* a byte more or less */
        if (length < NAME_BYTES && one_in(2))
            strcat(value, "0");
        else
            value[length > 1 ? length - 1 : 0] = length > 1 ? 0 : 'w';
        break;
    }
}

static void put_columns(struct bytes *file, const struct plan *plan)
{
    for (int i = 0; i < plan->attributes; i++) {
        const struct column *column = &plan->column[i];
        put(file, column->letter == 'M' ? "M\t" : "A\t");
        put(file, column->name);
        for (int value = 0; value < column->values; value++) {
            put(file, "\t");
            put(file, column->value[value]);
        }
        put(file, "\n");
    }
}

static void put_target(struct bytes *file, const struct column *column, int wide)
{
    uint32_t all = (1u << column->values) - 1, mask = below(all + 1);
    const char *before = "";

    if (wide || mask == 0 || mask == all) {
        put(file, "*");
        return;
    }
    for (int value = 0; value < column->values; value++)
        if (mask >> value & 1) {
            put(file, before);
            put(file, column->value[value]);
            before = ",";
        }
}

static void put_element(struct bytes *file, const struct plan *plan, int number, char kind, int depth)
{
    static const char *const words[] = {"deny-overrides", "permit-overrides", "first-applicable", "only-one-applicable"};
    char line[60];
    int wide = kind != 'R' && one_in(2);

    sprintf(line, "%c\t%d\t%c%d\t", kind, depth, plan->prefix, number);
    if (number == plan->used)
        sprintf(line, "%c\t%d\t%s\t", kind, depth, plan->other);
    put(file, line);
    put(file, kind == 'R' ? (one_in(2) ? "permit" : "deny") : words[below(kind == 'P' ? 3 : 4)]);
    for (int i = 0; i < plan->attributes; i++) {
        put(file, "\t");
        put_target(file, &plan->column[i], wide || one_in(2));
    }
    put(file, "\n");
}

static void put_tree(struct bytes *file, const struct plan *plan)
{
    char kinds[9] = ""; /* of the last element and all above it */
    int last = 0;

    for (int i = 0; i < plan->elements; i++) {
        int depth = i;
        char kind = i < plan->chain || (i == 0 && one_in(2)) ? 'S' : 'P';
        if (i > plan->chain) {
            do
                depth = one_in(2) ? last + 1 - one_in(3) : 1 + (int)below((uint32_t)last + 1);
            while (depth < 1 || depth > plan->deepest || kinds[depth - 1] == 'R');
            kind = kinds[depth - 1] == 'P' ? 'R' : one_in(3) && depth < plan->deepest ? 'S' : 'P';
        }
        kinds[depth] = kind;
        last = depth;
        put_element(file, plan, i, kind, depth);
    }
}

static void make_planned(struct bytes *file, const struct plan *plan)
{
    file->length = 0;
    put_columns(file, plan);
    put_tree(file, plan);
    if (!one_in(3))
        add_obligations(file);
}

void make_word(struct bytes *word, int good)
{
    static const char *const words[] = {"deny-overrides", "permit-overrides", "first-applicable", "only-one-applicable"};
    static const char *const others[] = {
        "", "permit", "deny", "joined", "*", "overrides", "deny-overrides\tdeny-overrides", "first-applicable\t*",
        "deny_overrides", "only-one-applicable-only-one-applicable", "\n", "\t",
    };
    uint8_t byte = tricky_byte();

    word->length = 0;
    put(word, words[below(4)]);
    if (good)
        return;
    size_t at = below((uint32_t)word->length);
    switch (below(8)) {
    case 0: case 1: turn_case(word->bytes, word->length); break;
    case 2: put(word, one_in(2) ? "\n" : "\t"); break;
    case 3: word->length = at; break;
    case 4: replace(word, at, one_in(2), &byte, 1); break;
    case 5: replace(word, at, 0, one_in(2) ? "\t" : "\n", 1); break;
    default: word->length = 0; put(word, others[below(sizeof others / sizeof *others)]); break;
    }
}

/* A name that the other file has, letter case aside, or `joined`, or nearly so. */
static void use_name(struct plan *plan, const struct plan *other)
{
    plan->used = plan->chain > 0 && !one_in(4) ? plan->chain + 1 : (int)below((uint32_t)plan->elements);
    if (one_in(2))
        sprintf(plan->other, "%c%d", other->prefix, (int)below((uint32_t)other->elements));
    else
        strcpy(plan->other, one_in(6) ? "joine" : one_in(6) ? "joined-" : "joined");
    if (one_in(2))
        turn_case((uint8_t *)plan->other, strlen(plan->other));
}

/* Some of the columns, in any order: those of `must` are among them. */
static void take_columns(struct plan *plan, const struct column *columns, int count, uint32_t must)
{
    int order[2 * ATTRIBUTES];

    for (int i = 0; i < count; i++) {
        int at = (int)below((uint32_t)i + 1);
        order[i] = order[at];
        order[at] = i;
    }
    for (int i = 0; i < count && plan->attributes < ATTRIBUTES; i++)
        if (must >> order[i] & 1)
            plan->column[plan->attributes++] = columns[order[i]];
}

/* The columns of both files: few, on both sides of six, or on both sides of a space of 4,096. */
static int choose_columns(struct column columns[2 * ATTRIBUTES])
{
    static const int spaces[][5] = {{16, 16, 16}, {16, 16, 16, 1}, {16, 16, 16, 2}, {13, 9, 7, 5}, {14, 14, 7, 3}};
    int many = one_in(4), edge = !many && one_in(5), count = many ? 5 + (int)below(8) : 1 + (int)below(4);
    int longer = one_in(4), of = (int)below(5);

    if (edge)
        for (count = 0; count < 5 && spaces[of][count] > 0;)
            count++;
    for (int i = 0; i < count; i++) {
        int values = edge ? spaces[of][i] : 1 + (int)below(many ? 2 : 3);
        make_column(&columns[i], i, one_in(4) && values < 4 ? 'M' : 'A', values, longer);
    }
    return count;
}

/* Each column is in one of the files or in both. */
static void plan_columns(struct plan plan[2])
{
    struct column columns[2 * ATTRIBUTES];
    int count = choose_columns(columns);
    uint32_t first = 0, second = 0, share = below(4);

    for (int i = 0; i < count; i++) {
        int both = below(4) <= share;
        int in_first = both || one_in(2);
        first |= (uint32_t)in_first << i;
        second |= (uint32_t)(both || !in_first) << i;
    }
    first |= first == 0;
    second |= second == 0;
    take_columns(&plan[0], columns, count, first);
    take_columns(&plan[1], columns, count, second);
    for (int i = 0; i < plan[1].attributes; i++) {
        if (one_in(3))
            turn_case((uint8_t *)plan[1].column[i].name, strlen(plan[1].column[i].name));
        if (one_in(16))
            vary_column(&plan[1].column[i]);
    }
}

void make_joining(struct joining *joining)
{
    struct plan plan[2] = {{.prefix = 'p', .used = -1}, {.prefix = 'q', .used = -1}};
    int elements = one_in(12) ? 61 + (int)below(5) : 2 + (int)below(14); /* of both */

    plan_columns(plan);
    plan[0].elements = 1 + (int)below((uint32_t)elements - 1);
    plan[1].elements = elements - plan[0].elements;
    for (int i = 0; i < 2; i++) {
        plan[i].deepest = 3 + (int)below(3);
        if (!one_in(6))
            continue;
        plan[i].deepest = one_in(4) ? 6 : 7;
        plan[i].chain = plan[i].deepest - 1;
        plan[i].elements = plan[i].elements < 8 ? 8 : plan[i].elements;
    }
    if (one_in(4)) {
        int using = plan[1].chain > 0 || one_in(2); /* a deep one, so that a line is refused for both */
        use_name(&plan[using], &plan[!using]);
    }
    make_planned(&joining->first, &plan[0]);
    make_planned(&joining->second, &plan[1]);
    make_word(&joining->word, !one_in(6));
}
