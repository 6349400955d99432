/* Three sorts of files: what a laboratory has, the largest that are accepted, and those made to be slow to trim or to
 * report on. The last sort aims at several ways of trimming: one that tries each rule on each request, one that goes by
 * segments, one that remembers which request needs a rule. */
#include "file_lines.h"

#include <stdio.h>
#include <stdlib.h>
#include <string.h>

static const unsigned everything[6] = {0};
static const char *const effects[2] = {"permit", "deny"};

/* The largest files. */

/* 64 elements of 16-byte names with targets of two values and more, up to the longest file that is accepted. */
static void largest(struct policy_file *file, struct shape *shape)
{
    uint64_t state = 1;

    even_space(file, shape, 'A', 6, 4, 1);
    numbered(file, shape, 'S', 0, 0, "deny-overrides", everything);
    for (unsigned i = 1; i < 64; i++) {
        unsigned targets[6];
        for (unsigned j = 0; j < 6; j++) {
            unsigned first = random_below(&state, 4);
            targets[j] = 1u << first | 1u << (first + 1 + random_below(&state, 3)) % 4;
            if (i % 10 == 1 || (j == 0 && i % 4 != 0)) /* wide policies; the rest fills the file */
                targets[j] = 15u & ~(1u << first);
        }
        if (i % 10 == 1)
            numbered(file, shape, 'P', 1, i, algorithms[i / 10 % 3], i == 1 ? everything : targets);
        else
            numbered(file, shape, 'R', 2, i, effects[i % 2], targets);
    }
}

/* Three attributes of 16 values with short names: the longest target lists. */
static void long_lists(struct policy_file *file, struct shape *shape)
{
    uint64_t state = 2;

    even_space(file, shape, 'A', 3, 16, 0);
    numbered(file, shape, 'S', 0, 0, "permit-overrides", everything);
    for (unsigned i = 1; i < 64; i++) {
        unsigned targets[6] = {0};
        for (unsigned j = 0; j < 3; j++)
            targets[j] = 0xffff & ~random_mask(&state, 16, 1 + (i + j) % 3);
        if (i % 16 == 1)
            numbered(file, shape, 'P', 1, i, algorithms[i / 16 % 3], targets);
        else
            numbered(file, shape, 'R', 2, i, effects[i / 2 % 2], targets);
    }
}

/* Slow to trim or to report on. */

/* Twelve rules that part every request from every other: of each attribute's four values, the first two and then the
 * first and the third. */
static void parting_rules(struct policy_file *file, const struct shape *shape, unsigned first_effect, unsigned change)
{
    for (unsigned i = 0; i < 12; i++) {
        unsigned targets[6] = {0};
        targets[i / 2] = i % 2 ? 5 : 3;
        numbered(file, shape, 'R', 1, i + 1, effects[(first_effect + i * change) % 2], targets);
    }
}

/* One policy of 63 rules, 4,096 segments, rules of all sizes. */
static void flat(struct policy_file *file, struct shape *shape, const char *algorithm)
{
    uint64_t state = 3;

    even_space(file, shape, 'A', 6, 4, 0);
    numbered(file, shape, 'P', 0, 0, algorithm, everything);
    for (unsigned i = 13; i < 64; i++) {
        unsigned targets[6];
        for (unsigned j = 0; j < 6; j++)
            targets[j] = random_mask(&state, 4, 1 + random_below(&state, 4));
        numbered(file, shape, 'R', 1, i, effects[random_below(&state, 2)], targets);
    }
    parting_rules(file, shape, 0, 1);
}

/* All rules are needed: each has sixteen requests of its own, the last rules at the first of them. */
static void all_needed(struct policy_file *file, struct shape *shape)
{
    even_space(file, shape, 'A', 3, 16, 0);
    numbered(file, shape, 'P', 0, 0, "deny-overrides", everything);
    for (unsigned i = 1; i < 64; i++) {
        unsigned targets[6] = {1u << (15 - i / 4), 15u << 4 * (i % 4), 0};
        numbered(file, shape, 'R', 1, i, effects[i % 2], targets);
    }
}

/* The first rule decides all: the others go, one by one from the last, and no request needs any of them. */
static void none_needed(struct policy_file *file, struct shape *shape, const char *algorithm)
{
    even_space(file, shape, 'A', 6, 4, 1);
    numbered(file, shape, 'P', 0, 0, algorithm, everything);
    numbered(file, shape, 'R', 1, 13, "permit", everything);
    parting_rules(file, shape, 0, 0);
    for (unsigned i = 14; i < 64; i++)
        numbered(file, shape, 'R', 1, i, "permit", everything);
}

/* Needless rules stand before needed ones, so that every search goes the whole way. Of each pair the second rule is
 * needed by the last request alone, where all policies must permit. */
static void needless_first(struct policy_file *file, struct shape *shape)
{
    unsigned number = 0;

    even_space(file, shape, 'A', 3, 16, 0);
    numbered(file, shape, 'S', 0, number++, "deny-overrides", everything);
    numbered(file, shape, 'P', 1, number++, "permit-overrides", everything);
    for (unsigned i = 0; i < 26; i++) {
        unsigned targets[6] = {1u << i % 12, 1u << (11 - i % 12), 3u << i / 2}; /* where a policy denies anyway */
        numbered(file, shape, 'R', 2, number++, "permit", targets);
    }
    for (unsigned i = 0; i < 12; i++) {
        unsigned box[6] = {1u << 15 | 1u << i, 1u << 15 | 1u << (11 - i), 0}, last[6] = {1u << 15, 1u << 15, 1u << 15};
        numbered(file, shape, 'P', 1, number++, "permit-overrides", everything);
        numbered(file, shape, 'R', 2, number++, "deny", box);
        numbered(file, shape, 'R', 2, number++, "permit", last);
    }
}

/* Depth 7: each set has a policy of six rules and a set, down to the last policy. */
static void deep(struct policy_file *file, struct shape *shape)
{
    uint64_t state = 4;
    unsigned number = 0;

    even_space(file, shape, 'A', 6, 4, 0);
    for (unsigned depth = 0; depth < 7; depth++) {
        unsigned rules = depth < 6 ? 6 : 15;
        if (depth < 6)
            numbered(file, shape, 'S', depth, number++, algorithms[depth % 3], everything);
        numbered(file, shape, 'P', depth < 6 ? depth + 1 : 6, number++, algorithms[(depth + 1) % 3], everything);
        for (unsigned i = 0; i < rules; i++) {
            unsigned targets[6];
            for (unsigned j = 0; j < 6; j++)
                targets[j] = random_mask(&state, 4, 2 + random_below(&state, 4));
            numbered(file, shape, 'R', depth < 6 ? depth + 2 : 7, number++, effects[i % 2], targets);
        }
    }
}

/* Only-one-applicable: 21 policies of two rules, some of which overlap. */
static void only_one(struct policy_file *file, struct shape *shape)
{
    even_space(file, shape, 'A', 3, 16, 0);
    numbered(file, shape, 'S', 0, 0, "only-one-applicable", everything);
    for (unsigned i = 0; i < 21; i++) {
        unsigned policy[6] = {1u << i % 16, i < 16 ? 0xfff : 0xfe00, 0}, odd[6] = {0, 0, 0x5555};
        numbered(file, shape, 'P', 1, 3 * i + 1, algorithms[i % 3], policy);
        numbered(file, shape, 'R', 2, 3 * i + 2, effects[i % 2], odd);
        numbered(file, shape, 'R', 2, 3 * i + 3, effects[i / 2 % 2], everything);
    }
}

/* Thirty-one policies of one rule each, most pairs of which conflict late or never. */
static void many_policies(struct policy_file *file, struct shape *shape)
{
    even_space(file, shape, 'A', 6, 4, 0);
    numbered(file, shape, 'S', 0, 0, "first-applicable", everything);
    for (unsigned i = 0; i < 31; i++) {
        unsigned policy[6] = {0, 0, 0, 0, 0, 1u << i % 4}, rule[6] = {1u << i / 8 % 4, 0, 3u << i % 3, 0, 0, 0};
        numbered(file, shape, 'P', 1, 2 * i + 1, algorithms[i % 3], policy);
        numbered(file, shape, 'R', 2, 2 * i + 2, effects[i / 4 % 2], rule);
    }
}

/* Sets of values. */

/* Seven policies of eight rules, whose targets hold from one value to most of them. */
static void sets(struct policy_file *file, struct shape *shape, unsigned attributes, unsigned values)
{
    uint64_t state = 5;

    even_space(file, shape, 'M', attributes, values, 0);
    numbered(file, shape, 'S', 0, 0, "permit-overrides", everything);
    for (unsigned i = 1; i < 64; i++) {
        unsigned policy = i % 9 == 1, targets[6] = {0};
        for (unsigned j = 0; j < attributes; j++)
            targets[j] = random_mask(&state, values, policy ? values : 1 + random_below(&state, values));
        if (policy)
            numbered(file, shape, 'P', 1, i, algorithms[i / 9 % 3], targets);
        else
            numbered(file, shape, 'R', 2, i, effects[random_below(&state, 2)], targets);
    }
}

/* As many lines for pairs of values as there can be, and long ones: each value has a policy, and only one may apply. */
static void every_pair(struct policy_file *file, struct shape *shape)
{
    even_space(file, shape, 'M', 1, 3, 0);
    numbered_attribute(file, shape, 'A', 1, 13);
    numbered_attribute(file, shape, 'A', 2, 9);
    numbered_attribute(file, shape, 'A', 3, 5);
    numbered(file, shape, 'S', 0, 0, "only-one-applicable", everything);
    for (unsigned i = 0; i < 3; i++) {
        unsigned policy[6] = {1u << i};
        numbered(file, shape, 'P', 1, i + 1, "deny-overrides", policy);
    }
}

/* Refused at the last line, or for an attribute of some thousand values. */

static void bad_last_target(struct policy_file *file, struct shape *shape)
{
    largest(file, shape);
    memcpy(file->bytes + file->length - 5, "none\n", 5);
}

static void name_again(struct policy_file *file, struct shape *shape)
{
    common_laboratory(file, shape, 'A', "deny-overrides");
    put(file, "R\t3\tgrip-wet-lead\tpermit\t*\t*\t*\n");
}

static void many_values(struct policy_file *file, struct shape *shape)
{
    char value[8];

    memset(shape, 0, sizeof *shape);
    put(file, "A\tnest");
    for (unsigned i = 0; i < 3900; i++) {
        snprintf(value, sizeof value, "\t%x", i);
        put(file, value);
    }
    put(file, "\n");
}

int make_file(struct policy_file *file, unsigned number)
{
    static const char *const names[] = {
        "lab-12", "lab-25-deny", "lab-25-permit", "lab-25-first", "lab-25-only-one", "lab-25-capitals",
        "badge-12", "badge-25-deny", "badge-25-permit", "badge-25-first", "badge-25-only-one",
        "largest", "long-lists",
        "flat-deny", "flat-permit", "flat-first", "all-needed", "none-needed-first", "none-needed-permit",
        "needless-first", "deep", "only-one", "many-policies", "sets-of-12", "sets-of-6-and-6", "every-pair",
        "obliged-lab-12", "obliged-lab-25", "obliged-badge-25", "obliged-deep", "obliged-policies", "obliged-late",
        "obliged-alike", "obliged-narrow", "obliged-behind",
        "refused-target", "refused-name", "refused-values",
    };
    enum { FILES = sizeof names / sizeof *names };
    struct shape shape;

    if (number >= FILES)
        return 0;
    file->name = names[number];
    file->length = 0;
    file->requests = 0;
    file->sets_length = 0;
    file->rule_length = 0;
    switch (number) {
    case 0: small_laboratory(file, &shape, 'A'); break;
    case 1: case 2: case 3: case 4: common_laboratory(file, &shape, 'A', algorithms[number - 1]); break;
    case 5: spelled_laboratory(file, &shape); break;
    case 6: small_laboratory(file, &shape, 'M'); break;
    case 7: case 8: case 9: case 10: common_laboratory(file, &shape, 'M', algorithms[number - 7]); break;
    case 11: largest(file, &shape); break;
    case 12: long_lists(file, &shape); break;
    case 13: case 14: case 15: flat(file, &shape, algorithms[number - 13]); break;
    case 16: all_needed(file, &shape); break;
    case 17: none_needed(file, &shape, "first-applicable"); break;
    case 18: none_needed(file, &shape, "permit-overrides"); break;
    case 19: needless_first(file, &shape); break;
    case 20: deep(file, &shape); break;
    case 21: only_one(file, &shape); break;
    case 22: many_policies(file, &shape); break;
    case 23: sets(file, &shape, 1, 12); break;
    case 24: sets(file, &shape, 2, 6); break;
    case 25: every_pair(file, &shape); break;
    case 26: small_laboratory(file, &shape, 'A'); oblige_laboratory(file); break;
    case 27: common_laboratory(file, &shape, 'A', "first-applicable"); oblige_laboratory(file); break;
    case 28: common_laboratory(file, &shape, 'M', "deny-overrides"); oblige_laboratory(file); break;
    case 29: deep(file, &shape); oblige_all(file); break;
    case 30: many_policies(file, &shape); oblige_all(file); break;
    case 31: obliged_late(file, &shape); break;
    case 32: obliged_alike(file, &shape); break;
    case 33: obliged_narrow(file, &shape); break;
    case 34: obliged_behind(file, &shape); break;
    case 35: bad_last_target(file, &shape); break;
    case 36: name_again(file, &shape); break;
    default: many_values(file, &shape); break;
    }
    if (number < 35)
        make_requests(file, &shape);
    return 1;
}
