/* Large policy files: many rules, many bytes, many obligations. */
#ifndef LARGE_H
#define LARGE_H

#include <stdio.h>
#include <string.h>

#include "jogimaduve.h"

/* 62 rules over 256 requests: each of the later half the equal of an earlier one; or the first within the second, and no other
 * that does no work. */
static inline size_t many(char *file, int only_first) {
    size_t size = 0;
    for (char name = 'x'; name <= 'y'; name++) {
        size += (size_t)sprintf(file + size, "A\t%c", name);
        for (char value = 'a'; value <= 'p'; value++) size += (size_t)sprintf(file + size, "\t%c", value);
        size += (size_t)sprintf(file + size, "\n");
    }
    size += (size_t)sprintf(file + size, "S\t0\ttop\tdeny-overrides\t*\t*\nP\t1\tp\tfirst-applicable\t*\t*\n");
    for (int i = 0; i < 62; i++) {
        int cell = only_first ? (i < 2 ? 0 : i) : i % 31;
        size += (size_t)sprintf(file + size, "R\t2\tr%d\t%s\t%c\t%c", i, cell % 2 == 0 ? "permit" : "deny", 'a' + cell % 16, 'a' + cell / 16);
        size += (size_t)sprintf(file + size, only_first && i == 1 ? ",p\n" : "\n");
    }
    return size;
}

/* A file of 16,384 bytes. Between its first rule and its last are 55 that do no work, with names as long as it takes. */
static inline size_t longest(char *file) {
    static const char last[] = "R\t1\tmay-not\tdeny\t*\t*\t*\n", longer[] = "-of-long-file";
    char most[15 * sizeof ",value-of-16-0000"];
    size_t size = 0;
    for (int value = 0; value < 15; value++) size += (size_t)sprintf(most + size, "%svalue-of-16-%04d", value == 0 ? "" : ",", value);
    size = 0;
    for (char name = 'x'; name <= 'z'; name++) {
        size += (size_t)sprintf(file + size, "A\t%c", name);
        for (int value = 0; value < 16; value++) size += (size_t)sprintf(file + size, "\tvalue-of-16-%04d", value);
        size += (size_t)sprintf(file + size, "\n");
    }
    size += (size_t)sprintf(file + size, "P\t0\ttop\tfirst-applicable\t*\t*\t*\nR\t1\tmay\tpermit\t%s\t*\t*\n", most);
    size_t rest = JOGIMADUVE_LONGEST_FILE - size - strlen(last) - 55 * (strlen("R\t1\tr00\tpermit\t\t*\t*\n") + strlen(most));
    for (int rule = 0; rule < 55; rule++) {
        size_t more = rest < strlen(longer) ? rest : strlen(longer);
        size += (size_t)sprintf(file + size, "R\t1\tr%02d%.*s\tpermit\t%s\t*\t*\n", rule, (int)more, longer, most);
        rest -= more;
    }
    return size + (size_t)sprintf(file + size, "%s", last);
}

/* The most obligations: nine chains of five sets and a policy below the first set, two names of 16 bytes on each of these 55
 * elements, a rule below each policy. All of them come with one permit. More elements that give one decision there cannot be:
 * each needs a rule below it, and no rule is below more than seven. */
static inline size_t most_obliged(char *file) {
    static const char two[] = "O\t0123456789abcdef\tpermit\nO\tfedcba9876543210\tpermit\n";
    size_t size = (size_t)sprintf(file, "A\tx\ta\nS\t0\ttop\tdeny-overrides\t*\n%s", two);
    for (int chain = 0; chain < 9; chain++) {
        for (int depth = 1; depth < 6; depth++) size += (size_t)sprintf(file + size, "S\t%d\ts%d-%d\tdeny-overrides\t*\n%s", depth, chain, depth, two);
        size += (size_t)sprintf(file + size, "P\t6\tp%d\tdeny-overrides\t*\n%sR\t7\tr%d\tpermit\t*\n", chain, two, chain);
    }
    return size;
}

#endif
