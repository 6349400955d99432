/* C-16 in the writer, worked out by hand: the places that a record has for obligations. */
#include "cases.h"

#include <string.h>

#define AB "A x a b\n"

static struct place place(const char *name, enum word word)
{
    struct place made = {.length = (uint8_t)strlen(name), .word = word};
    memcpy(made.name, name, strlen(name) < NAME_BYTES ? strlen(name) : NAME_BYTES);
    return made;
}

static const struct place unused = {.word = EFFECT_PERMIT};

/* Two values; the list is a policy, which has these obligations, and a rule. */
static void writes_places(int count, struct place one, struct place other, uint32_t number, uint32_t second, const char *text)
{
    struct record list[] = {
        {.kind = 'P', .depth = 0, .name = "top", .length = 3, .word = DENY_OVERRIDES, .mask = {3},
        .obligations = (uint8_t)count,
         .place = {one, other}},
        {.kind = 'R', .depth = 1, .name = "r", .length = 1, .word = EFFECT_PERMIT, .mask = {1}, .place = {unused,
        unused}},
    };
    writes(AB, list, number, second, text);
}

#define WRITTEN AB "P 0 top deny-overrides *\n"

static void lists(void)
{
    struct place log = place("log", EFFECT_PERMIT), slow = place("Slow", EFFECT_DENY), bad = place("lo_g", EFFECT_PERMIT);
    struct place behind = log, longer = log, empty = unused, denied = unused, length = unused, late = unused;

    behind.name[NAME_BYTES - 1] = 'x';
    longer.length = NAME_BYTES + 1;
    denied.word = EFFECT_DENY;
    length.length = 1;
    late.name[NAME_BYTES - 1] = 1;
    writes_places(0, unused, unused, 0, sizeof WRITTEN "R 1 r permit a\n" - 1, WRITTEN "R 1 r permit a\n");
    writes_places(1, log, unused, 0, sizeof WRITTEN "O log permit\nR 1 r permit a\n" - 1, WRITTEN "O log permit\n"
                  "R 1 r permit a\n");
    writes_places(2, slow, log, 0, sizeof WRITTEN "O Slow deny\nO log permit\nR 1 r permit a\n" - 1,
                  WRITTEN "O Slow deny\nO log permit\nR 1 r permit a\n");
    /* other content in unused places: 3 with the element's line */
    writes_places(0, log, unused, 3, 2, "");
    writes_places(0, unused, log, 3, 2, "");
    writes_places(1, log, slow, 3, 2, "");
    writes_places(0, denied, unused, 3, 2, "");
    writes_places(1, log, denied, 3, 2, "");
    writes_places(0, unused, length, 3, 2, "");
    writes_places(0, late, unused, 3, 2, "");
    writes_places(1, bad, late, 3, 2, "");
    /* used places: with their own lines */
    writes_places(1, bad, unused, 3, 3, "");
    writes_places(1, behind, unused, 3, 3, "");
    writes_places(1, longer, unused, 3, 3, "");
    writes_places(1, empty, unused, 3, 3, "");
    writes_places(2, log, empty, 3, 4, "");
    writes_places(2, log, log, 4, 4, "");
    writes_places(2, log, place("LOG", DENY_OVERRIDES), 4, 4, "");
    writes_places(1, place("log", DENY_OVERRIDES), unused, 7, 3, "");
    writes_places(2, log, place("slow", ONLY_ONE_APPLICABLE), 7, 4, "");
    /* the third has a line, but no place */
    writes_places(3, log, slow, 14, 5, "");
    writes_places(255, log, slow, 14, 5, "");
    writes_places(3, log, log, 4, 4, "");
    writes_places(255, log, bad, 3, 4, "");
    writes_places(3, place("log", FIRST_APPLICABLE), slow, 7, 3, "");
}

/* Obligations on the rule, behind a policy with two. */
static void writes_on_rule(int count, struct place one, struct place other, uint16_t mask, uint32_t number, uint32_t second)
{
    struct record list[] = {
        {.kind = 'P', .depth = 0, .name = "top", .length = 3, .word = DENY_OVERRIDES, .mask = {3}, .obligations = 2,
         .place = {place("log", EFFECT_PERMIT), place("slow", EFFECT_DENY)}},
        {.kind = 'R', .depth = 1, .name = "r", .length = 1, .word = EFFECT_PERMIT, .mask = {mask},
        .obligations = (uint8_t)count,
         .place = {one, other}},
    };
    writes(AB, list, number, second, "");
}

static void rules(void)
{
    struct place log = place("log", EFFECT_PERMIT), bad = place("-", EFFECT_PERMIT);

    writes_on_rule(1, log, unused, 1, 14, 6);
    writes_on_rule(2, log, bad, 1, 14, 6);
    writes_on_rule(255, log, log, 1, 14, 6);
    writes_on_rule(1, bad, unused, 1, 3, 6);
    writes_on_rule(3, bad, log, 1, 3, 6);
    writes_on_rule(1, place("log", DENY_OVERRIDES), unused, 1, 14, 6);
    writes_on_rule(0, log, unused, 1, 3, 5);
    writes_on_rule(1, log, log, 1, 3, 5);
    writes_on_rule(1, log, unused, 4, 8, 5);
    /* among the attribute lines */
    struct record list[2] = {{.kind = 'P', .name = "p", .length = 1, .word = DENY_OVERRIDES, .mask = {3}}};
    writes(AB "O log permit\n", list, 14, 2, "");
    writes(AB "O log no\n", list, 14, 2, "");
    writes(AB "O l_g no\n", list, 3, 2, "");
    writes("O log\n" AB, list, 2, 1, "");
    writes("O log permit\n" AB, list, 14, 1, "");
    writes(AB "P 0 top deny-overrides *\nO log permit\n", list, 6, 2, "");
}

void cases_of_places(void)
{
    lists();
    rules();
}
