/* Lines of obligations: put into files that have none, and small files that are made for them. */
#include "generate.h"

#include <stdio.h>
#include <string.h>

enum { POOLS = 5 };

/* A name of one pool: one, two that are equal but for case, or few, so that parents, children and siblings share them; one
 * for each element; of 16 bytes, which differ at one end or in case alone. */
static void name_of(uint32_t pool, uint32_t number, char name[17])
{
    static const char *const few[] = {"log", "Log", "slow", "lamp", "l", "log-2", "O", "permit"};

    if (pool < 3)
        strcpy(name, few[below(pool == 2 ? 8 : 1 + pool)]);
    else if (pool == 3)
        sprintf(name, "o%lu", (unsigned long)number % 1000);
    else
        sprintf(name, "%cbligation-of-%c%c", "oO0"[below(3)], "aA"[below(2)], "bB1"[below(3)]);
}

static int equal_but_for_case(const char *one, const char *other)
{
    return equal_names((struct slice){(const uint8_t *)one, strlen(one)},
                       (struct slice){(const uint8_t *)other, strlen(other)});
}

/* Puts one or two at a place, of names that are not equal; gives the place behind them. */
static size_t put_some(struct bytes *file, size_t at, uint32_t pool, uint32_t number)
{
    char line[60], name[2][17];
    int count = 1 + one_in(2);

    for (int i = 0; i < count; i++) {
        do
            name_of(pool, 2 * number + (uint32_t)i, name[i]);
        while (i == 1 && equal_but_for_case(name[0], name[1]) && pool > 1);
        if (i == 1 && equal_but_for_case(name[0], name[1]))
            break;
        size_t length = (size_t)sprintf(line, "O\t%s\t%s\n", name[i], one_in(3) ? "deny" : "permit");
        if (file->length + length > FILE_BYTES && !one_in(200))
            break;
        replace(file, at, 0, line, length);
        at += length;
    }
    return at;
}

void add_obligations(struct bytes *file)
{
    uint32_t pool = below(POOLS), often = 1 + below(10), number = 0;

    for (size_t at = 0; at < file->length;) {
        char letter = (char)file->bytes[at];
        while (at < file->length && file->bytes[at] != '\n')
            at++;
        at++;
        if ((letter == 'S' || letter == 'P') && below(10) < often)
            at = put_some(file, at, pool, number++);
    }
}

/* Trees of few requests in which most children of an element give the same: what is settled early, what is asked and what
 * another element gives as well counts there. */
struct tree {
    struct bytes *file;
    uint32_t elements, pool;
    uint32_t permits;   /* of ten rules so many */
    uint32_t wide;      /* of ten targets so many are `*` */
    int attributes, values[2];
};

static void put_element(struct tree *tree, char kind, int depth, const char *word)
{
    char line[60];

    sprintf(line, "%c\t%d\te%lu\t%s", kind, depth, (unsigned long)tree->elements++, word);
    put(tree->file, line);
    for (int i = 0; i < tree->attributes; i++) {
        sprintf(line, "\tv%lu", (unsigned long)below((uint32_t)tree->values[i]));
        put(tree->file, depth == 0 || below(10) < tree->wide ? "\t*" : line);
    }
    put(tree->file, "\n");
}

/* With obligations, perhaps. */
static void put_line(struct tree *tree, char kind, int depth, const char *word)
{
    put_element(tree, kind, depth, word);
    if (kind != 'R' && !one_in(4))
        put_some(tree->file, tree->file->length, tree->pool, tree->elements);
}

/* A set of policies any of which settles the answer, each with an obligation for it or two: the earlier rules have fewer
 * requests than the last one, which gives the same name, one in other case, of as many bytes, or another, or the two in
 * another order. */
static void put_rivals(struct tree *tree, int depth)
{
    static const char *const names[][OBLIGATIONS] = {
        {"log"}, {"log"}, {"Log"}, {"lag"}, {"slow"}, {"log", "slow"}, {"log", "slow"}, {"slow", "log"}, {"slow", "log"},
    };
    int permit = below(10) < tree->permits;
    const char *effect = permit ? "permit" : "deny";
    uint32_t wide = tree->wide;
    char line[60];

    put_line(tree, 'S', depth, one_in(2) ? "first-applicable" : permit ? "permit-overrides" : "deny-overrides");
    for (int left = 1 + (int)below(2); left >= 0; left--) {
        tree->wide = 10;
        put_element(tree, 'P', depth + 1, "first-applicable");
        const char *const *name = names[below(sizeof names / sizeof *names)];
        for (int i = 0; i < OBLIGATIONS && name[i] != NULL; i++) {
            sprintf(line, "O\t%s\t%s\n", name[i], effect);
            put(tree->file, line);
        }
        tree->wide = left == 0 ? 9 : 2;
        put_element(tree, 'R', depth + 2, effect);
    }
    tree->wide = wide;
}

static void put_tree(struct tree *tree, int depth, int levels)
{
    static const char *const words[] = {
        "deny-overrides", "permit-overrides", "first-applicable", "deny-overrides", "permit-overrides",
        "only-one-applicable",
    };
    int policy = levels == 0 || (depth > 0 && one_in(3));

    put_line(tree, policy ? 'P' : 'S', depth, words[below(policy ? 3 : 6)]);
    for (uint32_t children = policy ? 1 + below(2) : 2 + below(2); children > 0 && tree->elements < 40; children--)
        if (policy)
            put_line(tree, 'R', depth + 1, below(10) < tree->permits ? "permit" : "deny");
        else if (one_in(4))
            put_rivals(tree, depth + 1);
        else
            put_tree(tree, depth + 1, levels - 1);
}

void make_obliged_file(struct bytes *file)
{
    static const uint32_t permits[] = {0, 1, 5, 9, 10};
    struct tree tree = {.file = file, .pool = below(POOLS), .permits = permits[below(5)], .wide = 4 + below(7),
                        .attributes = 1 + (int)below(2)};
    char value[20];

    file->length = 0;
    for (int i = 0; i < tree.attributes; i++) {
        tree.values[i] = 2 + (int)below(2);
        put(file, one_in(4) ? "M\t" : "A\t");
        put(file, i == 0 ? "x" : "y");
        for (int number = 0; number < tree.values[i]; number++) {
            sprintf(value, "\tv%d", number);
            put(file, value);
        }
        put(file, "\n");
    }
    put_tree(&tree, 0, 1 + (int)below(3));
}
