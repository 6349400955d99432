/* The requests of a policy file: what each number stands for, and where two values get another decision than one. */
#ifndef SPACE_H
#define SPACE_H

#include <stdio.h>
#include <string.h>

#define ATTRIBUTES 6
#define VALUES 16
#define NAME_MOST 16
#define REQUEST_MOST (ATTRIBUTES * VALUES * (NAME_MOST + 1))
#define PAIRS_MOST 90000 /* 1,755 lines of 51 bytes: three pairs of values and 585 choices of the other attributes */

static int attributes;
static char names[ATTRIBUTES][NAME_MOST + 1];
static int sets[ATTRIBUTES]; /* an M: a request holds a set of its values, not one */
static int values[ATTRIBUTES];
static char declared[ATTRIBUTES][VALUES][NAME_MOST + 1];

/* The name and the values of an attribute line, which ends in a newline. */
static void declare(const char *line) {
    int field = 0;
    if (attributes == ATTRIBUTES) return;
    sets[attributes] = line[0] == 'M';
    values[attributes] = 0;
    for (const char *at = line; *at != '\n' && *at != '\0'; field++) {
        size_t length = strcspn(at, "\t\n");
        if (field == 1) snprintf(names[attributes], sizeof names[0], "%.*s", (int)length, at);
        if (field >= 2 && field < 2 + VALUES) {
            snprintf(declared[attributes][values[attributes]++], sizeof declared[0][0], "%.*s", (int)length, at);
        }
        at += length + (at[length] == '\t');
    }
    attributes++;
}

/* All attributes of a file, which has a line behind theirs. */
static inline void declare_all(const char *file) {
    attributes = 0;
    for (const char *at = file; *at == 'A' || *at == 'M'; at = strchr(at, '\n') + 1) declare(at);
}

/* What an attribute counts in the space. */
static long count_of(int attribute) {
    return sets[attribute] ? (1L << values[attribute]) - 1 : values[attribute];
}

/* What a request holds by its number for one attribute, as a mask of values: a set's number is its mask less 1. */
static long mask_of(int attribute, long number) {
    return sets[attribute] ? number + 1 : 1L << number;
}

/* The masks of a request, the first attribute weighing most; 0 if there is no such request. */
static int held_by(long number, long held[ATTRIBUTES]) {
    for (int i = attributes; i-- > 0; number /= count_of(i)) held[i] = mask_of(i, number % count_of(i));
    return number == 0;
}

static void put_request(const long held[ATTRIBUTES], char *line) {
    *line = '\0';
    for (int i = 0; i < attributes; i++) {
        const char *before = i > 0 ? "\t" : "";
        for (int value = 0; value < values[i]; value++) {
            if (!(held[i] >> value & 1)) continue;
            strcat(line, before);
            strcat(line, declared[i][value]);
            before = ",";
        }
    }
}

/* The D lines of an attribute, by the decision of each request, as a number or 4 for none; their length. */
static inline size_t pair_lines(int attribute, unsigned decision(const long held[ATTRIBUTES]), char *text) {
    static const char *const words[] = {"permit", "deny", "not-applicable", "indeterminate", "nothing"};
    long held[ATTRIBUTES];
    size_t length = 0;
    for (long number = 0; held_by(number, held); number++) {
        long both = held[attribute], earlier = both & -both, later = both - earlier;
        if (later == 0 || (later & (later - 1)) != 0) continue; /* one value, or three or more */
        unsigned with_both = decision(held);
        held[attribute] = earlier;
        unsigned with_earlier = decision(held);
        held[attribute] = later;
        unsigned with_later = decision(held);
        if (with_both == with_earlier && with_both == with_later) continue;
        length += (size_t)sprintf(text + length, "D\t%ld\t%s\t%s\t%s\n", number, words[with_both], words[with_earlier], words[with_later]);
    }
    return length;
}

#endif
