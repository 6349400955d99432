/* jogimaduve_join at the edges of what a file can hold: attributes, requests, elements, depth, bytes, and two edges at once. */
#include <pthread.h>

#include "joined.h"
#include "large.h"

static char first[JOGIMADUVE_LONGEST_FILE + 2], second[JOGIMADUVE_LONGEST_FILE + 2], text[2 * JOGIMADUVE_LONGEST_FILE];

static void joins_made(size_t size, size_t length, const char *word, size_t text_length, const char *what, int line) {
    joins((const uint8_t *)first, size, (const uint8_t *)second, length, word, (const uint8_t *)text, text_length, what, line);
}

static void refuses_made(size_t size, size_t length, const char *word, uint32_t number, uint32_t told, const char *what, int line) {
    refuses_both((const uint8_t *)first, size, (const uint8_t *)second, length, (const uint8_t *)word, strlen(word), number, told, what, line);
}

static size_t put(char *file, size_t at, const char *string) {
    strcpy(file + at, string);
    return at + strlen(string);
}

static size_t put_times(char *file, size_t at, const char *string, int times) {
    for (; times > 0; times--) at = put(file, at, string);
    return at;
}

/* Attributes of one value from number `from` up to `to`, and a policy. */
static size_t one_valued(char *file, int from, int to, const char *policy) {
    size_t at = 0;
    for (int i = from; i < to; i++) at += (size_t)sprintf(file + at, "%c\tn%d\tv\n", i % 2 == 0 ? 'A' : 'M', i);
    at += (size_t)sprintf(file + at, "P\t0\t%s\tdeny-overrides", policy);
    return put(file, put_times(file, at, "\t*", to - from), "\n");
}

/* Up to twelve attributes: six are good, the seventh is refused, the line of `joined` counts all. */
static void attributes(void) {
    for (int of_first = 1; of_first <= 6; of_first++) {
        for (int from = 0; from <= of_first; from++) {
            for (int to = from + 1; to <= from + 6; to++) {
                int all = to > of_first ? to : of_first;
                size_t size = one_valued(first, 0, of_first, "p"), length = one_valued(second, from, to, "q"), at = 0;
                refuses_made(size, length, "Deny-overrides", 7, (uint32_t)all + 1, "7 first", __LINE__);
                if (all > 6) {
                    refuses_made(size, length, DENY, 5, 7, "attribute 7", __LINE__);
                    continue;
                }
                for (int i = 0; i < all; i++) at += (size_t)sprintf(text + at, "%c\tn%d\tv\n", i % 2 == 0 ? 'A' : 'M', i);
                at = put(text, put_times(text, put(text, at, "S\t0\tjoined\tdeny-overrides"), "\t*", all), "\n");
                at = put(text, put_times(text, put(text, at, "P\t1\tp\tdeny-overrides"), "\t*", all), "\n");
                at = put(text, put_times(text, put(text, at, "P\t1\tq\tdeny-overrides"), "\t*", all), "\n");
                joins_made(size, length, DENY, at, "up to six attributes", __LINE__);
            }
        }
    }
}

static size_t declares(char *file, size_t at, char letter, char name, int values) {
    at += (size_t)sprintf(file + at, "%c\t%c", letter, name);
    for (int value = 0; value < values; value++) at += (size_t)sprintf(file + at, "\t%c", 'a' + value);
    return put(file, at, "\n");
}

/* 4,096 requests and more, with the attribute that is one too many at each place. */
static void space(void) {
    for (int more = 1; more <= 2; more++) {
        size_t size = put(first, declares(first, declares(first, 0, 'A', 'x', 16), 'A', 'y', 16), "P\t0\tp\tdeny-overrides\ta\tp\n");
        size_t length = put(second, declares(second, declares(second, 0, 'A', 'z', 16), 'M', 'w', more), "P\t0\tq\tdeny-overrides\tp\t*\n");
        size_t at = declares(text, declares(text, declares(text, declares(text, 0, 'A', 'x', 16), 'A', 'y', 16), 'A', 'z', 16), 'M', 'w', more);
        at = put(text, at, "S\t0\tjoined\tonly-one-applicable\t*\t*\t*\t*\nP\t1\tp\tdeny-overrides\ta\tp\t*\t*\nP\t1\tq\tdeny-overrides\t*\t*\tp\t*\n");
        if (more == 1) joins_made(size, length, ONLY, at, "4,096 requests", __LINE__);
        else refuses_made(size, length, ONLY, 5, 4, "12,288 requests", __LINE__);
    }
    size_t size = put(first, declares(first, 0, 'M', 'x', 12), "P\t0\tp\tdeny-overrides\t*\n");
    refuses_made(size, put(second, declares(second, 0, 'A', 'y', 2), "P\t0\tq\tdeny-overrides\t*\n"), ONLY, 5, 2, "4,095 times 2", __LINE__);
    refuses_made(size, put(second, declares(second, declares(second, 0, 'A', 'y', 1), 'A', 'z', 2), "P\t0\tp\tdeny-overrides\t*\t*\n"), ONLY, 5, 3, "before a name", __LINE__);
    size_t length = put(second, declares(second, declares(second, 0, 'A', 'y', 1), 'M', 'X', 12), "P\t0\tq\tdeny-overrides\t*\tl\n");
    size_t at = put(text, declares(text, declares(text, 0, 'M', 'x', 12), 'A', 'y', 1), "S\t0\tjoined\tonly-one-applicable\t*\t*\nP\t1\tp\tdeny-overrides\t*\t*\nP\t1\tq\tdeny-overrides\tl\t*\n");
    joins_made(size, length, ONLY, at, "4,095 requests", __LINE__);
}

/* A set and so many elements below it, all with two obligations, one level deeper if so wanted; their names have this letter. */
static size_t elements(char *file, size_t at, char name, int count, int deeper) {
    for (int i = 0; i < count; i++) at += (size_t)sprintf(file + at, "S\t%d\t%c%d\tdeny-overrides\t%s\nO\tlog\tpermit\nO\tslow\tdeny\n", (i > 0) + deeper, name, i, i % 2 == 0 ? "*" : "a");
    return at;
}

/* 64 with `joined`, then one more; of these 65 the last has a name that is used; obligations are no elements. */
static void sixty_four(void) {
    static const char x[] = "A\tx\ta\tb\n";
    for (int of_first = 1; of_first <= 62; of_first++) {
        size_t size = elements(first, put(first, 0, x), 'p', of_first, 0), length = elements(second, put(second, 0, x), 'q', 63 - of_first, 0);
        size_t at = elements(text, elements(text, put(text, put(text, 0, x), "S\t0\tjoined\tfirst-applicable\t*\n"), 'p', of_first, 1), 'q', 63 - of_first, 1);
        uint32_t lines = 2 + 3 * 63;
        if (of_first % 8 == 1 || of_first == 62) joins_made(size, length, FIRST, at, "64 elements", __LINE__);
        refuses_made(size, put(second, length, "S\t1\tmore\tdeny-overrides\t*\nO\tlog\tdeny\n"), FIRST, 5, lines + 1, "65 elements", __LINE__);
        refuses_made(size, put(second, length, "S\t1\tP0\tdeny-overrides\t*\n"), FIRST, 4, lines + 1, "element 65 by a name", __LINE__);
        refuses_made(size, put(second, length, "S\t1\tmore\tdeny-overrides\t*\nS\t1\tjoined\tdeny-overrides\t*\n"), FIRST, 5, lines + 1, "66 elements", __LINE__);
    }
    size_t size = elements(first, put(first, 0, x), 'p', 64, 0), length = elements(second, put(second, 0, x), 'q', 64, 0);
    refuses_made(size, length, FIRST, 5, 2 + 3 * 63 + 1, "two files of 64", __LINE__);
    length = elements(second, put(second, 0, x), 'p', 64, 0);
    refuses_made(size, length, FIRST, 5, 2 + 3 * 63 + 1, "5 before 4", __LINE__);
    refuses_made(size, length, "first", 7, 2, "7 before both", __LINE__);
}

/* A chain of sets down to this depth. */
static size_t chain(char *file, size_t at, char name, int depth) {
    for (int i = 0; i <= depth; i++) at += (size_t)sprintf(file + at, "S\t%d\t%c%d\tdeny-overrides\t*\n", i, name, i);
    return at;
}

static void depths(void) {
    static const char x[] = "A\tx\ta\tb\n";
    for (int one = 0; one <= 7; one++) {
        for (int other = 0; other <= 7; other++) {
            size_t size = chain(first, put(first, 0, x), 'p', one), length = chain(second, put(second, 0, x), 'q', other);
            if (one == 7 || other == 7) {
                refuses_made(size, length, PERMIT, 6, one == 7 ? 10 : (uint32_t)(2 + one + 1 + 8), "depth 8", __LINE__);
                continue;
            }
            size_t at = put(text, put(text, 0, x), "S\t0\tjoined\tpermit-overrides\t*\n");
            for (int i = 0; i <= one; i++) at += (size_t)sprintf(text + at, "S\t%d\tp%d\tdeny-overrides\t*\n", i + 1, i);
            for (int i = 0; i <= other; i++) at += (size_t)sprintf(text + at, "S\t%d\tq%d\tdeny-overrides\t*\n", i + 1, i);
            joins_made(size, length, PERMIT, at, "depth up to 7", __LINE__);
        }
    }
    /* the line that comes first is told, and the lowest number of a line */
    size_t size = chain(first, put(first, 0, x), 'p', 7);
    refuses_made(size, chain(second, put(second, 0, x), 'p', 7), PERMIT, 6, 10, "6 before 4 further down", __LINE__);
    refuses_made(size, put(second, 0, "A\tx\ta\tb\nP\t0\tjoined\tdeny-overrides\t*\n"), PERMIT, 6, 10, "6 before 4 further down", __LINE__);
    size = put(first, 0, "A\tx\ta\tb\nP\t0\tp7\tdeny-overrides\t*\n");
    refuses_made(size, chain(second, put(second, 0, x), 'P', 7), PERMIT, 4, 11, "4 and 6 on a line", __LINE__);
    size = put(first, 0, "A\tx\ta\tb\nP\t0\tp6\tdeny-overrides\t*\n");
    refuses_made(size, chain(second, put(second, 0, x), 'p', 7), PERMIT, 4, 10, "4 above 6", __LINE__);
    refuses_made(size, chain(second, put(second, 0, x), 'q', 7), "permit", 7, 2, "7 before 6", __LINE__);
    size = elements(first, put(first, 0, x), 'q', 56, 0);
    refuses_made(size, chain(second, put(second, 0, x), 'p', 7), PERMIT, 5, 2 + 3 * 56 + 8, "5 and 6 on a line", __LINE__);
}

/* All but the last of 16 values. */
static const char *most(void) {
    static char values[15 * sizeof ",value-of-16-0000"];
    size_t at = 0;
    for (int value = 0; value < 15; value++) at += (size_t)sprintf(values + at, "%svalue-of-16-%04d", value == 0 ? "" : ",", value);
    return values;
}

static size_t long_attribute(char *file, size_t at, char name) {
    at += (size_t)sprintf(file + at, "A\t%c", name);
    for (int value = 0; value < 16; value++) at += (size_t)sprintf(file + at, "\tvalue-of-16-%04d", value);
    return put(file, at, "\n");
}

/* Both files have rules of over 500 bytes, and the second an attribute more. The joined text has this many bytes: the names of
 * the second's last rules find it. */
static void bytes(size_t wanted) {
    size_t size = put(first, long_attribute(first, long_attribute(first, 0, 'x'), 'y'), "P\t0\tp\tdeny-overrides\t*\t*\n");
    size_t length = put(second, long_attribute(second, put(second, long_attribute(second, 0, 'Y'), "A\tz\ta\tb\n"), 'x'), "P\t0\tq\tdeny-overrides\t*\t*\t*\n");
    size_t policy = length - strlen("q\tdeny-overrides\t*\t*\t*\n"), rest;
    size_t at = put(text, long_attribute(text, long_attribute(text, 0, 'x'), 'y'), "A\tz\ta\tb\nS\t0\tjoined\tdeny-overrides\t*\t*\t*\nP\t1\tp\tdeny-overrides\t*\t*\t*\n");
    for (int rule = 0; rule < 14; rule++) {
        size += (size_t)sprintf(first + size, "R\t1\tp%d\tpermit\t%s\t%s\n", rule, most(), most());
        at += (size_t)sprintf(text + at, "R\t2\tp%d\tpermit\t%s\t%s\t*\n", rule, most(), most());
    }
    at = put(text, at, "P\t1\tq\tdeny-overrides\t*\t*\t*\n");
    for (int rule = 0; rule < 14; rule++) {
        length += (size_t)sprintf(second + length, "R\t1\tq%d\tpermit\t%s\tb\t%s\n", rule, most(), most());
        at += (size_t)sprintf(text + at, "R\t2\tq%d\tpermit\t%s\t%s\tb\n", rule, most(), most());
    }
    for (rest = wanted - at; rest > 0; rest = wanted - at) {
        int lines = (int)(rest + 31) / 32, name = (int)rest / lines - (int)strlen("R\t2\t\tdeny\t*\t*\t*\n");
        length += (size_t)sprintf(second + length, "R\t1\t%0*d\tdeny\t*\t*\t*\n", name, lines);
        at += (size_t)sprintf(text + at, "R\t2\t%0*d\tdeny\t*\t*\t*\n", name, lines);
    }
    if (wanted <= JOGIMADUVE_LONGEST_FILE) joins_made(size, length, DENY, at, "the longest text", __LINE__);
    else refuses_made(size, length, DENY, 1, 0, "too long", __LINE__);
    refuses_made(size, length, FIRST, 1, 0, "a longer word", __LINE__);
    refuses_made(size, length, "deny-overrideS", 7, 4, "7 before 1", __LINE__);
    second[policy] = 'P';
    if (wanted <= JOGIMADUVE_LONGEST_FILE) refuses_made(size, length, DENY, 4, 20, "a name of both", __LINE__);
    else refuses_made(size, length, DENY, 1, 0, "1 before 4", __LINE__);
}

/* Two files of as many bytes as they can have. */
static void longest_files(void) {
    size_t size = longest(first), length = longest(second);
    refuses_made(size, length, DENY, 1, 0, "two longest files", __LINE__);
    refuses_made(size, length, "", 7, 4, "two longest files", __LINE__);
    length = put(second, 0, "A\tw\ta\nP\t0\tjoined\tdeny-overrides\t*\n");
    refuses_made(size, length, DENY, 1, 0, "the longest file and a short one", __LINE__);
    refuses_both((const uint8_t *)second, length, (const uint8_t *)first, size, TEXT(DENY), 1, 0, "and the other way round", __LINE__);
    first[size] = '\n';
    refuses_made(size + 1, length, "", 1, 0, "a longer file", __LINE__);
    refuses_both((const uint8_t *)second, length, (const uint8_t *)first, size + 1, TEXT(""), 1, 0, "a longer file", __LINE__);
}

static void *join_often(void *made) {
    static uint8_t texts[2][JOGIMADUVE_LONGEST_FILE];
    uint8_t *own = texts[made != NULL];
    const char *word = made != NULL ? DENY : PERMIT;
    size_t size = sizeof "A\tx\ta\nP\t0\tp\tdeny-overrides\t*\n" - 1;
    uint32_t needed = (uint32_t)(strlen("A\tx\ta\nS\t0\tjoined\t\t*\nP\t1\tp\tdeny-overrides\t*\nP\t1\tq\tdeny-overrides\t*\n") + strlen(word));
    uintptr_t good = 0;
    for (int i = 0; i < 2000; i++) {
        jogimaduve_answer got = jogimaduve_join((const uint8_t *)"A\tx\ta\nP\t0\tp\tdeny-overrides\t*\n", size, (const uint8_t *)"A\tx\ta\nP\t0\tq\tdeny-overrides\t*\n", size, (const uint8_t *)word, strlen(word), own, sizeof texts[0]);
        good += got.number == 0 && got.second == needed && memcmp(own + sizeof "A\tx\ta\nS\t0\tjoined\t" - 1, word, strlen(word)) == 0;
    }
    return (void *)good;
}

/* In two threads at once. */
static void threads(void) {
    pthread_t thread;
    void *good;
    if (pthread_create(&thread, NULL, join_often, first) != 0) abort();
    check(join_often(NULL) == (void *)2000, "in one thread", __LINE__);
    pthread_join(thread, &good);
    check(good == (void *)2000, "in the other", __LINE__);
}

int main(void) {
    attributes();
    space();
    sixty_four();
    depths();
    for (size_t wanted = JOGIMADUVE_LONGEST_FILE - 1; wanted <= JOGIMADUVE_LONGEST_FILE + 2; wanted++) bytes(wanted);
    longest_files();
    threads();
    return checks_done();
}
