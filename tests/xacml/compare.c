/* Compares decisions with those of another XACML engine, kept as vectors.
 *
 * A vector file has `#` lines, and for each policy its lines and then `=` with the engine's decisions of all requests, in
 * number order. Its last line says how many policies there are. A policy passes if the library decides every request as
 * the engine does, by the file and also by the trimmed file, and lists the pairs of values of each M by those decisions. The
 * same is asked of the file with obligations on its first element, which come with each permit or deny of the engine. */
#include "../c/space.h"
#include "jogimaduve.h"

#define FILE_MOST 16384
#define LINE_MOST 5000
#define SHOWN 10 /* differing policies that are printed */

static const char LETTERS[] = "PDNI";

static char policy[FILE_MOST];
static size_t size;

static const char *engine; /* its decisions of the policy's requests, in number order */

static int passed;
static int failed;
static long lines; /* of pairs */

/* The obligations of the first element, and the text of them that comes with a decision. */
static const char OBLIGATIONS[] = "O\tlog\tpermit\nO\tslow\tdeny\n";

static const char *obligations_with(char letter) {
    return letter == 'P' ? "log\n" : letter == 'D' ? "slow\n" : "";
}

static int decides(const char *file, size_t length, int obliged, const char *what) {
    static char line[REQUEST_MOST];
    long held[ATTRIBUTES], number = 0;
    for (; held_by(number, held); number++) {
        put_request(held, line);
        uint8_t text[8];
        jogimaduve_decision got = jogimaduve_decide((const uint8_t *)file, length, (const uint8_t *)line, strlen(line), text, sizeof text);
        const char *wanted = obliged ? obligations_with(engine[number]) : "";
        char letter = got.number == 0 && got.second < 4 ? LETTERS[got.second] : '?';
        if (got.length != strlen(wanted) || memcmp(text, wanted, got.length) != 0) letter = '!';
        if (engine[number] != letter) {
            if (failed < SHOWN) printf("request %ld (%s): the engine says %c, %s %c\n", number, line, engine[number], what, letter);
            return 0;
        }
    }
    return engine[number] == '\0';
}

/* What the engine decides, by the place of its letter. */
static unsigned by_engine(const long held[ATTRIBUTES]) {
    long number = 0;
    for (int i = 0; i < attributes; i++) {
        long own = 0;
        while (mask_of(i, own) != held[i]) own++;
        number = number * count_of(i) + own;
    }
    return (unsigned)(strchr(LETTERS, engine[number]) - LETTERS);
}

/* Of each M the lines that the engine's decisions make; an A has none. */
static int lists_pairs(void) {
    static char wanted[PAIRS_MOST], text[PAIRS_MOST];
    for (int i = 0; i < attributes; i++) {
        jogimaduve_answer got = jogimaduve_value_pairs((const uint8_t *)policy, size, (const uint8_t *)names[i], strlen(names[i]), (uint8_t *)text, sizeof text);
        size_t length = sets[i] ? pair_lines(i, by_engine, wanted) : 0;
        if (got.number != (sets[i] ? 0 : 13) || got.second != length || memcmp(text, wanted, length) != 0) {
            if (failed < SHOWN) printf("pairs of %s: by the engine's decisions\n%.*s", names[i], (int)length, wanted);
            return 0;
        }
        for (size_t at = 0; at < length; at++) lines += wanted[at] == '\n';
    }
    return 1;
}

static int decides_trimmed(int obliged, const char *what) {
    static char trimmed[FILE_MOST];
    jogimaduve_answer got = jogimaduve_trim((const uint8_t *)policy, size, (uint8_t *)trimmed, sizeof trimmed);
    return got.number == 0 && decides(trimmed, got.second, obliged, what);
}

/* Puts them behind the first tree line. */
static void oblige(void) {
    size_t at = 0, more = strlen(OBLIGATIONS);
    int letter;
    do {
        letter = policy[at];
        while (policy[at++] != '\n') {}
    } while (letter == 'A' || letter == 'M');
    memmove(policy + at + more, policy + at, size - at);
    memcpy(policy + at, OBLIGATIONS, more);
    size += more;
}

static void compare(void) {
    int holds = attributes > 0 && decides(policy, size, 0, "the library") && lists_pairs() && decides_trimmed(0, "the trimmed file");
    if (holds) oblige();
    holds = holds && decides(policy, size, 1, "with obligations the library") && lists_pairs() && decides_trimmed(1, "trimmed with obligations");
    if (holds) {
        passed++;
    } else {
        if (failed++ < SHOWN) printf("policy %d:\n%.*s=%s\n", passed + failed, (int)size, policy, engine);
    }
    size = 0;
    attributes = 0;
}

/* All policies of a vector file; whether it is whole. */
static int compare_file(const char *name) {
    static char line[LINE_MOST];
    int before = passed + failed;
    int said = -1;
    FILE *file = fopen(name, "r");
    if (file == NULL) return 0;
    while (fgets(line, sizeof line, file) != NULL) {
        size_t length = strlen(line);
        if (line[0] == '#') {
            if (sscanf(line, "# %d policies", &said) != 1) said = -1;
        } else if (line[0] == '=') {
            line[strcspn(line, "\n")] = '\0';
            engine = line + 1;
            compare();
        } else if (size + length + sizeof OBLIGATIONS <= sizeof policy) {
            if (line[0] == 'A' || line[0] == 'M') declare(line);
            memcpy(policy + size, line, length);
            size += length;
        }
    }
    fclose(file);
    return said == passed + failed - before;
}

int main(int count, char **files) {
    for (int i = 1; i < count; i++) {
        if (!compare_file(files[i])) {
            printf("%s is not whole\n", files[i]);
            failed++;
        }
    }
    printf("%ld lines of pairs, without obligations and with them\n", lines);
    printf("%d passed, %d failed\n", passed, failed);
    return failed != 0 || passed == 0;
}
