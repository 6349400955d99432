/* Valid files, made as text. */
#include "generate.h"

#include <stdio.h>
#include <string.h>

struct style { int look, spelling; };

/* Names of one style, told apart by `number`, which is under 100. No two differ in letter case alone. */
static void name_of(struct style style, int number, char name[17])
{
    static const char letters[] = "abcdefghijklmnopqrstuvwxyz0123456789-";
    int length = 0;

    switch (style.look) {
    case 0:
        length = sprintf(name, "%c%d", 'a' + number % 26, number);
        break;
    case 1: /* one a beginning of the other: only the length tells them apart */
        name[length++] = (char)('a' + number / 16);
        while (length <= number % 16)
            name[length++] = '-';
        break;
    case 2: /* 16 bytes, told apart by the last two */
        memset(name, '9', 16);
        name[14] = letters[number / 10];
        name[15] = letters[number % 10];
        length = 16;
        break;
    case 3: /* 16 bytes, told apart by the first and the last */
        memset(name, '-', 16);
        name[0] = (char)('z' - number % 26);
        name[15] = (char)('z' - number / 26);
        length = 16;
        break;
    default: /* of any length */
        length = 1 + (int)below(14);
        for (int i = 0; i < length; i++)
            name[i] = letters[below(i == 0 ? 36 : 37)];
        name[length++] = letters[number / 10];
        name[length++] = letters[26 + number % 10];
        break;
    }
    name[length] = 0;
    spell(name, style.spelling);
}

struct shape {
    int capitals; /* whether names may have them */
    int sets;     /* of four attributes so many are an M */
    int few;      /* one M of two to four values, perhaps another attribute of two beside it */
    int attributes;
    char letter[8];
    int values[8];
    char value[8][20][17];
    uint32_t stars; /* of ten targets so many are `*` */
    int narrow;     /* the others have one value each, so that more rules are kept */
};

static struct style any_style(const struct shape *shape)
{
    struct style style = {.look = (int)below(5)};
    style.spelling = shape->capitals ? (int)below(SPELLINGS) : 0;
    return style;
}

/* Values of all attributes, those of an M below 0, on both sides of 4,096, of 16 and 12 values and of 6 attributes. The
 * next space over 4,096 that there can be, with sets or without, is 4,116. */
static const int edges[][8] = {
    {16, 16, 16}, {16, 16, 16, 2}, {16, 16, 16, 1, 1, 1}, {1, 16, 16, 1, 16, 2}, {14, 14, 7, 3}, {13, 9, 7, 5},
    {16, 16, 17}, {17}, {16, 16, 16, 1, 1, 1, 1}, {4, 4, 4, 4, 4, 4}, {2, 2, 2, 2, 2, 2, 2},
    {-12}, {-13}, {-12, 1}, {1, -1, -12, 1, -1}, {-12, 2}, {2, -12}, {-11, 2}, {2, -11}, {-11, -2}, {-6, -6}, {-6, -7},
    {-7, -5}, {-6, 13, 5}, {14, -3, 14, 3}, {16, 16, 16, -1}, {16, 16, 16, -2}, {16, -8}, {-8, 17}, {-4, -4, -4},
    {-4, -4, -4, 2}, {-2, -2, -2, -2, -2, -2}, {-1, -1, -1, -1, -1, -1}, {-1, 1, -1, 1, -1, 1, -1},
    {-1, -1, -1, -1, -1, -1, -1}, {-16}, {-17},
};

/* What an attribute counts in the space. */
static int count_of(char letter, int values)
{
    return letter == 'M' ? (1 << values) - 1 : values;
}

/* How many values each attribute has, and whether a request holds one of them or a set. */
static void choose_values(struct shape *shape)
{
    static const int spaces[] = {8, 24, 24, 60, 60, 256, 1024, 4096};
    int space = 1, most = spaces[below(8)];

    shape->attributes = 0;
    if (shape->few) {
        int other = (int)below(5); /* first, behind, none */
        shape->attributes = other < 2 ? 2 : 1;
        for (int i = 0; i < shape->attributes; i++) {
            shape->letter[i] = i == other && !one_in(3) ? 'A' : 'M';
            shape->values[i] = i == other ? 2 : 2 + (int)below(3);
        }
        return;
    }
    if (one_in(20)) {
        const int *edge = edges[below(sizeof edges / sizeof *edges)];
        for (int i = 0; i < 8 && edge[i] != 0; i++) {
            shape->letter[i] = edge[i] < 0 ? 'M' : 'A';
            shape->values[i] = edge[i] < 0 ? -edge[i] : edge[i];
            shape->attributes++;
        }
        return;
    }
    for (int attributes = 1 + (int)below(6); shape->attributes < attributes; shape->attributes++) {
        char letter = (int)below(4) < shape->sets ? 'M' : 'A';
        int many = letter == 'M' ? one_in(6) : one_in(2); /* sets soon fill the space */
        int values = 1 + (int)below(many ? (letter == 'M' ? SET_VALUES : VALUES) : 4);
        while (values > 1 && space * count_of(letter, values) > most)
            values--;
        space *= count_of(letter, values);
        shape->letter[shape->attributes] = letter;
        shape->values[shape->attributes] = values;
    }
}

static void make_attributes(struct bytes *file, struct shape *shape)
{
    struct style attribute_style = any_style(shape);

    choose_values(shape);
    for (int i = 0; i < shape->attributes; i++) {
        struct style style = any_style(shape);
        char name[17];
        name_of(attribute_style, i, name);
        put(file, shape->letter[i] == 'M' ? "M\t" : "A\t");
        put(file, name);
        for (int value = 0; value < shape->values[i]; value++) {
            name_of(style, value, shape->value[i][value]);
            put(file, "\t");
            put(file, shape->value[i][value]);
        }
        put(file, "\n");
    }
}

static void put_target(struct bytes *file, const struct shape *shape, int attribute)
{
    int values = shape->values[attribute], some = 0;
    uint32_t all = (1u << values) - 1, mask = below(all + 1);

    if (one_in(3))
        mask &= below(all + 1);
    if (one_in(3) || shape->narrow)
        mask = 1u << below((uint32_t)values);
    if (mask == 0 || mask == all || below(10) < shape->stars) {
        put(file, "*");
        return;
    }
    for (int value = 0; value < values; value++)
        if (mask >> value & 1) {
            put(file, some++ ? "," : "");
            put(file, shape->value[attribute][value]);
        }
}

static void make_elements(struct bytes *file, const struct shape *shape)
{
    static const char *const words[] = {
        "deny-overrides", "permit-overrides", "first-applicable", "only-one-applicable" /* the last for sets */
    };
    static const int sizes[] = {1, 4, 8, 12, 16, 24, 40, 64};
    char kinds[9] = ""; /* of the last element and all above it */
    struct style style = any_style(shape);
    int last = 0, deep = (int)below(3);
    int deepest = one_in(20) ? 8 : 7; /* 8 is one too deep */
    /* so many sets, each the only child of the one before */
    int chain = deep == 2 ? (int)below((uint32_t)deepest + 1) : 0;
    int elements = one_in(2) ? sizes[below(8)] : 1 + (int)below(30);
    size_t targets = 0, targets_length = 0; /* of the element before */

    if (one_in(50))
        elements = 65 + (int)below(2);
    for (int i = 0; i < elements; i++) {
        char kind, start[40], name[17];
        int depth = 0;
        if (file->length > 15000 && !one_in(200))
            return;
        if (i == 0) {
            kind = chain == 0 && one_in(3) ? 'P' : 'S';
        } else if (i <= chain) {
            kind = 'S';
            depth = i;
        } else {
            do
                depth = one_in(2) ? last + 1 - one_in(3) : 1 + (int)below((uint32_t)last + 1);
            while (depth < 1 || depth > deepest || kinds[depth - 1] == 'R');
            kind = kinds[depth - 1] == 'P' ? 'R' : one_in(deep == 0 ? 6 : 2) ? 'S' : 'P';
        }
        kinds[depth] = kind;
        last = depth;
        name_of(style, i, name);
        sprintf(start, "%c\t%d\t", kind, depth);
        put(file, start);
        put(file, name);
        put(file, "\t");
        put(file, kind == 'R' ? (one_in(2) ? "permit" : "deny") : words[below(kind == 'P' ? 3 : 4)]);

        size_t here = file->length;
        if (i > 0 && one_in(5)) { /* the same targets again: twins and conflicts */
            replace(file, here, 0, file->bytes + targets, targets_length);
        } else {
            int wide = depth == 0 ? !one_in(6) : one_in(kind == 'R' ? 12 : 2);
            for (int attribute = 0; attribute < shape->attributes; attribute++) {
                put(file, "\t");
                if (wide)
                    put(file, "*");
                else
                    put_target(file, shape, attribute);
            }
        }
        targets = here;
        targets_length = file->length - here;
        put(file, "\n");
    }
}

void make_small_file(struct bytes *file)
{
    struct shape shape = {.few = 1, .stars = 0};

    file->length = 0;
    shape.capitals = !one_in(3);
    shape.narrow = one_in(2);
    make_attributes(file, &shape);
    make_elements(file, &shape);
    if (one_in(2))
        add_obligations(file);
}

void make_file(struct bytes *file)
{
    struct shape shape;

    if (one_in(100)) {
        make_edge_file(file);
        return;
    }
    file->length = 0;
    shape.capitals = !one_in(3);
    shape.sets = one_in(3) ? 0 : 1 + (int)below(4);
    shape.few = 0;
    make_attributes(file, &shape);
    shape.stars = shape.attributes > 3 ? 5 + below(4) : below(7);
    shape.narrow = one_in(3);
    if (!one_in(100))
        make_elements(file, &shape);
    if (one_in(2))
        add_obligations(file);
    if (!one_in(3))
        for (uint32_t i = 1 + below(one_in(3) ? 3 : 1); i > 0; i--)
            damage(file);
}
