/* Makes policy files with rules that do no work and with obligations, and request lines for them, good and bad. */
#ifndef MAKE_H
#define MAKE_H

#include <stdint.h>
#include <stdio.h>
#include <string.h>

#define MOST_MADE 4000 /* bytes of a file: 3 attributes, 10 sets and policies with 2 obligations each, 24 rules */

static uint32_t drawn = 18;

/* A number below this one, the same in every run. */
static unsigned below(unsigned bound) {
    drawn = drawn * 1664525 + 1013904223;
    return (unsigned)(((uint64_t)drawn * bound) >> 32);
}

static const char *const value_names[3][4] = {{"tech", "Guest", "lead", "o-2"}, {"jog", "teach", "Grip", "UNLOCK"}, {"rack", "reader", "a", "B"}};

static struct made {
    char text[MOST_MADE];
    size_t size;
    int attributes, values[3];
    char letters[3];
    int policies, rules;
} made; /* the file that is made, or that requests are made for */

#define PUT(...) (made.size += (size_t)sprintf(made.text + made.size, __VA_ARGS__))

/* All values, or some of them but not all. */
static void make_target(char *field, int attribute, unsigned of_all) {
    unsigned all = (1u << made.values[attribute]) - 1, some = all;
    if (all > 1 && below(of_all) == 0) some = 1 + below(all - 1);
    strcpy(field, some == all ? "*" : "");
    for (int value = 0; some != all && value < made.values[attribute]; value++) {
        if (some >> value & 1) strcat(strcat(field, *field == '\0' ? "" : ","), value_names[attribute][value]);
    }
}

/* The last fields of a line: targets, of which one in so many is not for all. */
static void make_targets(char *fields, unsigned of_all) {
    *fields = '\0';
    for (int i = 0; i < made.attributes; i++) {
        strcat(fields, "\t");
        make_target(fields + strlen(fields), i, of_all);
    }
}

static void make_obligations(void) {
    static const char *const names[] = {"log-move", "lower-speed", "Sound-Alarm"};
    unsigned count = below(3), first = below(3);
    for (unsigned i = 0; i < count; i++) PUT("O\t%s\t%s\n", names[(first + i) % 3], below(3) == 0 ? "deny" : "permit");
}

static void make_policy(int depth) {
    static const char *const algorithms[] = {"deny-overrides", "permit-overrides", "first-applicable"};
    static char made_rules[2][60]; /* the last two, from the effect on */
    char fields[60];
    make_targets(fields, 4);
    PUT("P\t%d\tPolicy-%d\t%s%s\n", depth, made.policies++, algorithms[below(3)], fields);
    make_obligations();
    for (unsigned rules = below(5); rules > 0; rules--) {
        /* one in four repeats the one before the last, which may be another policy's */
        char *last = made_rules[made.rules % 2];
        if (below(4) != 0 || made.rules < 2) {
            make_targets(fields, 2);
            sprintf(last, "%s%s", below(2) == 0 ? "deny" : "permit", fields);
        }
        PUT("R\t%d\t%s%d\t%s\n", depth + 1, below(2) == 0 ? "r" : "Rule-no-", made.rules++, last);
    }
}

static void make_file(void) {
    static const char *const algorithms[] = {"deny-overrides", "permit-overrides", "first-applicable", "only-one-applicable"};
    char fields[60];
    made.size = 0;
    made.policies = made.rules = 0;
    made.attributes = 1 + (int)below(3);
    for (int i = 0; i < made.attributes; i++) {
        made.letters[i] = below(3) == 0 ? 'M' : 'A';
        made.values[i] = 1 + (int)below(made.letters[i] == 'M' ? 3 : 4);
        PUT("%c\t%s", made.letters[i], ((const char *const[]){"Role", "act", "NEST"})[i]);
        for (int value = 0; value < made.values[i]; value++) PUT("\t%s", value_names[i][value]);
        PUT("\n");
    }
    if (below(4) == 0) {
        make_policy(0);
        return;
    }
    make_targets(fields, 9);
    PUT("S\t0\ttop\t%s%s\n", algorithms[below(4)], fields);
    make_obligations();
    for (unsigned children = 1 + below(3); children > 0; children--) {
        int depth = 1;
        if (below(3) == 0) {
            make_targets(fields, 6);
            PUT("S\t1\tset-%u\t%s%s\n", children, algorithms[below(4)], fields);
            make_obligations();
            depth = 2;
        }
        for (unsigned policies = 1 + below(2); policies > 0; policies--) make_policy(depth);
    }
}

/* A request line. A bad one has a field too many, one that is no value, or no field at all. */
static inline size_t make_request(char *line, int good) {
    unsigned fault = good ? 3 : below(3), bad = below((unsigned)made.attributes);
    *line = '\0';
    for (int i = 0; i < made.attributes; i++) {
        unsigned all = (1u << made.values[i]) - 1, held = made.letters[i] == 'M' ? 1 + below(all) : 1u << below((unsigned)made.values[i]);
        if (i > 0) strcat(line, "\t");
        for (int value = 0, first = 1; value < made.values[i]; value++) {
            if (!(held >> value & 1)) continue;
            strcat(strcat(line, first ? "" : ","), value_names[i][value]);
            first = 0;
        }
        if (fault == 0 && (unsigned)i == bad) strcat(line, ",boss");
    }
    if (fault == 1) strcat(line, "\ttech");
    if (fault == 2) *line = '\0';
    if (below(4) == 0 && *line >= 'a' && *line <= 'z') *line = (char)(*line - 32);
    return strlen(line);
}

#endif
