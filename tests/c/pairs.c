/* jogimaduve_value_pairs: the lines, names, the bytes behind the text, short buffers, refusals. */
#include "space.h"
#include "text.h"

#define TOP "P\t0\ttop\tfirst-applicable\t*\n"
#define TOP2 "P\t0\ttop\tfirst-applicable\t*\t*\n"
#define TOP3 "P\t0\ttop\tfirst-applicable\t*\t*\t*\n"
#define SIX "a\tb\tc\td\te\tf"
#define TWELVE SIX "\tg\th\ti\tj\tk\tl"
#define BADGE                                                                                  \
    "M\tRole\tTech\tguest\taud\nA\tact\tjog\tteach\nP\t0\tCell\tdeny-overrides\t*\t*\n"        \
    "R\t1\tr1\tpermit\tTech\t*\nR\t1\tr2\tdeny\tguest,aud\tteach\n"
#define BADGE_PAIRS                                                                            \
    "D\t4\tpermit\tpermit\tnot-applicable\nD\t5\tdeny\tpermit\tdeny\n"                         \
    "D\t8\tpermit\tpermit\tnot-applicable\nD\t9\tdeny\tpermit\tdeny\n"

/* The attribute that `pairs` is asked for. */
static const uint8_t *attribute;
static size_t attribute_length;

static jogimaduve_answer pairs(const uint8_t *file, size_t file_length, uint8_t *out, size_t room) {
    return jogimaduve_value_pairs(file, file_length, attribute, attribute_length, out, room);
}

static void lists(const uint8_t *name, size_t length, const uint8_t *file, size_t size, const uint8_t *text, size_t text_length, const char *what, int line) {
    attribute = name;
    attribute_length = length;
    gives(pairs, file, size, text, text_length, what, line);
}

/* Also in no buffer: the refusal is no 11. */
static void refuses_name(const uint8_t *name, size_t length, const uint8_t *file, size_t size, uint32_t number, uint32_t second, const char *what, int line) {
    attribute = name;
    attribute_length = length;
    refuses(pairs, file, size, number, second, what, line);
    answers(pairs(file, size, buffer, 0), number, second, what, line);
}

#define LISTS(file, name, text) lists(TEXT(name), TEXT(file), TEXT(text), #name " of " #file, __LINE__)
#define REFUSES(file, name, number, second) refuses_name(TEXT(name), TEXT(file), number, second, #name " of " #file, __LINE__)

/* The sets of a, b, c and d are numbered a 0, b 1, a and b 2, c 3, a and c 4, b and c 5, d 7, a and d 8, b and d 9, c and d 11. */
static void decisions(void) {
    /* the decision with both is that with one of the two: with the earlier, with the later */
    LISTS("M\tx\ta\tb\n" TOP "R\t1\tr\tpermit\ta\n", "x", "D\t2\tpermit\tpermit\tnot-applicable\n");
    LISTS("M\tx\ta\tb\n" TOP "R\t1\tr\tpermit\tb\n", "x", "D\t2\tpermit\tnot-applicable\tpermit\n");
    LISTS("M\tx\ta\tb\n" TOP "R\t1\tr1\tdeny\tb\nR\t1\tr2\tpermit\ta\n", "x", "D\t2\tdeny\tpermit\tdeny\n");
    LISTS("M\tx\ta\tb\n" TOP "R\t1\tr1\tpermit\ta\nR\t1\tr2\tdeny\tb\n", "x", "D\t2\tpermit\tpermit\tdeny\n");
    /* that with neither */
    LISTS("M\tx\ta\tb\nP\t0\ttop\tdeny-overrides\ta\nR\t1\tr\tpermit\tb\n", "x", "D\t2\tpermit\tnot-applicable\tnot-applicable\n");
    LISTS("M\tx\ta\tb\nS\t0\ttop\tdeny-overrides\t*\nP\t1\tno\tdeny-overrides\tb\nR\t2\tr1\tdeny\ta\nP\t1\tyes\tdeny-overrides\t*\nR\t2\tr2\tpermit\t*\n", "x",
          "D\t2\tdeny\tpermit\tpermit\n");
    LISTS("M\tx\ta\tb\nS\t0\ttop\tonly-one-applicable\t*\nP\t1\tp\tdeny-overrides\ta\nR\t2\tr1\tpermit\t*\nP\t1\tq\tdeny-overrides\tb\nR\t2\tr2\tpermit\t*\n", "x",
          "D\t2\tindeterminate\tpermit\tpermit\n");
    LISTS("M\tx\ta\tb\nS\t0\ttop\tonly-one-applicable\t*\nP\t1\tp\tdeny-overrides\ta\nR\t2\tr\tdeny\t*\nP\t1\tq\tdeny-overrides\tb\n", "x",
          "D\t2\tindeterminate\tdeny\tnot-applicable\n");
    /* that with each: no line */
    LISTS("M\tx\ta\tb\n" TOP, "x", "");
    LISTS("M\tx\ta\tb\n" TOP "R\t1\tr\tdeny\t*\n", "x", "");
    LISTS("M\tx\ta\tb\tc\n" TOP "R\t1\tr\tpermit\ta,b\n", "x", "D\t4\tpermit\tpermit\tnot-applicable\nD\t5\tpermit\tpermit\tnot-applicable\n");
    /* all three get what no two of them get: no pair, no line */
    LISTS("M\tx\ta\tb\tc\nS\t0\ttop\tdeny-overrides\ta\nS\t1\ts\tdeny-overrides\tb\nP\t2\tp\tdeny-overrides\tc\nR\t3\tr\tpermit\t*\n", "x", "");
}

static void numbers(void) {
    LISTS("M\tx\ta\n" TOP "R\t1\tr\tpermit\t*\n", "x", "");
    /* the pair of b and c comes before that of a and d */
    LISTS("M\tx\ta\tb\tc\td\n" TOP "R\t1\tr\tdeny\ta,b\n", "x",
          "D\t4\tdeny\tdeny\tnot-applicable\nD\t5\tdeny\tdeny\tnot-applicable\nD\t8\tdeny\tdeny\tnot-applicable\nD\t9\tdeny\tdeny\tnot-applicable\n");
    /* first: 2 times 2 and 4 times 2; last: 2 and 4, 7 more with the second value; between: 6 + 2 times 2 + 1 */
    LISTS("M\tx\ta\tb\tc\nA\ty\td\te\n" TOP2 "R\t1\tr\tdeny\ta\te\n", "x", "D\t5\tdeny\tdeny\tnot-applicable\nD\t9\tdeny\tdeny\tnot-applicable\n");
    LISTS("A\ty\td\te\nM\tx\ta\tb\tc\n" TOP2 "R\t1\tr\tdeny\t*\ta\n", "x",
          "D\t2\tdeny\tdeny\tnot-applicable\nD\t4\tdeny\tdeny\tnot-applicable\nD\t9\tdeny\tdeny\tnot-applicable\nD\t11\tdeny\tdeny\tnot-applicable\n");
    LISTS("A\tx\ta\tb\nM\ty\tc\td\nA\tz\te\tf\n" TOP3 "R\t1\tr\tpermit\tb\td\tf\n", "y", "D\t11\tpermit\tnot-applicable\tpermit\n");
    /* with each set of the other that holds c, then with each that holds a */
    LISTS("M\tx\ta\tb\nM\ty\tc\td\n" TOP2 "R\t1\tr\tpermit\ta\tc\n", "x", "D\t6\tpermit\tpermit\tnot-applicable\nD\t8\tpermit\tpermit\tnot-applicable\n");
    LISTS("M\tx\ta\tb\nM\ty\tc\td\n" TOP2 "R\t1\tr\tpermit\ta\tc\n", "y", "D\t2\tpermit\tpermit\tnot-applicable\nD\t8\tpermit\tpermit\tnot-applicable\n");
    LISTS("M\tx\ta\nM\ty\tb\tc\n" TOP2 "R\t1\tr\tpermit\t*\tb\n", "x", "");
    LISTS("M\tx\ta\nM\ty\tb\tc\n" TOP2 "R\t1\tr\tpermit\t*\tb\n", "y", "D\t2\tpermit\tpermit\tnot-applicable\n");
}

/* l with each of eleven others: 2^11 + 2^v, less 1. */
static void twelve(void) {
    static char text[600];
    size_t length = 0;
    for (int value = 0; value < 11; value++) {
        length += (size_t)sprintf(text + length, "D\t%d\tpermit\tnot-applicable\tpermit\n", 2047 + (1 << value));
    }
    lists(TEXT("x"), TEXT("M\tx\t" TWELVE "\n" TOP "R\t1\tr\tpermit\tl\n"), (const uint8_t *)text, length, "twelve values", __LINE__);
}

static void named(void) {
    LISTS(BADGE, "Role", BADGE_PAIRS);
    LISTS(BADGE, "role", BADGE_PAIRS);
    LISTS(BADGE, "rOLE", BADGE_PAIRS);
    LISTS("M\tname-of-16-bytez\ta\tb\n" TOP "R\t1\tr\tpermit\ta\n", "Name-of-16-byteZ", "D\t2\tpermit\tpermit\tnot-applicable\n");
    /* an `A`, an element, a value, nothing; not the name to the end, or more */
    REFUSES(BADGE, "act", 13, 0);
    REFUSES(BADGE, "ACT", 13, 0);
    REFUSES(BADGE, "Cell", 13, 0);
    REFUSES(BADGE, "r1", 13, 0);
    REFUSES(BADGE, "Tech", 13, 0);
    REFUSES(BADGE, "jog", 13, 0);
    REFUSES(BADGE, "nobody", 13, 0);
    REFUSES(BADGE, "", 13, 0);
    REFUSES(BADGE, "M", 13, 0);
    REFUSES(BADGE, "*", 13, 0);
    REFUSES(BADGE, "Rol", 13, 0);
    REFUSES(BADGE, "Roles", 13, 0);
    REFUSES(BADGE, "Role\x00", 13, 0);
    REFUSES(BADGE, "Role\n", 13, 0);
    REFUSES(BADGE, "Role\t", 13, 0);
    REFUSES(BADGE, "Role,act", 13, 0);
    REFUSES(BADGE, "M\tRole", 13, 0);
    REFUSES("M\tname-of-16-bytez\ta\tb\n" TOP, "name-of-16-byte", 13, 0);
    REFUSES("M\tname-of-16-bytez\ta\tb\n" TOP, "name-of-16-bytezz", 13, 0);
    /* another byte by the bit that tells A from a, or by another bit */
    REFUSES("M\tx0-\ta\tb\n" TOP, "x0\r", 13, 0);
    REFUSES("M\tx0-\ta\tb\n" TOP, "x\x10-", 13, 0);
    REFUSES("M\tx0-\ta\tb\n" TOP, "\xf8" "0-", 13, 0);
    REFUSES("A\tx\ta\tb\n" TOP, "x", 13, 0);
    /* a name of several pools is that of the attribute */
    LISTS("A\tb\tx\nM\tx\ta\tb\nP\t0\tX\tdeny-overrides\t*\t*\nR\t1\ta\tpermit\t*\ta\n", "x", "D\t2\tpermit\tpermit\tnot-applicable\n");
    REFUSES("A\tb\tx\nM\tx\ta\tb\nP\t0\tX\tdeny-overrides\t*\t*\nR\t1\ta\tpermit\t*\ta\n", "b", 13, 0);
}

/* A refused file is refused, whatever the name. */
static void refusals(void) {
    REFUSES("M\tx\ta\tb\n" TOP "R\t1\tr\tpermit\ta,b\n", "x", 8, 3);
    REFUSES("M\tx\ta\tb\n" TOP "R\t1\tr\tpermit\ta,b\n", "y", 8, 3);
    REFUSES("M\tx\ta\tb\n", "", 9, 0);
    REFUSES("M\tx\ta\tb\n", "name-of-17-bytes-", 9, 0);
    REFUSES("M\tx\t" TWELVE "\tm\n" TOP, "x", 5, 1);
    attribute = (const uint8_t *)"y"; /* of no file here */
    attribute_length = 1;
    refuses_bad_files(pairs);
}

static const char *policy;

static unsigned decided(const long held[ATTRIBUTES]) {
    static char line[REQUEST_MOST];
    put_request(held, line);
    jogimaduve_answer got = bare_decision((const uint8_t *)policy, strlen(policy), (const uint8_t *)line, strlen(line));
    return got.number == 0 ? got.second : 4;
}

/* Every pair and choice of every `M`, by what the three requests get; how many lines there are. */
static int every_pair(const char *file, int line) {
    static char text[PAIRS_MOST];
    int lines = 0;
    policy = file;
    declare_all(file);
    for (int i = 0; i < attributes; i++) {
        if (!sets[i]) continue;
        size_t length = pair_lines(i, decided, text);
        lists((const uint8_t *)names[i], strlen(names[i]), (const uint8_t *)file, strlen(file), (const uint8_t *)text, length, names[i], line);
        for (size_t at = 0; at < length; at++) lines += text[at] == '\n';
    }
    return lines;
}

#define EVERY(lines, file) check(every_pair(file, __LINE__) == (lines), #file, __LINE__)

static void every(void) {
    EVERY(44, "M\tx\t" TWELVE "\n" TOP "R\t1\tr1\tpermit\ta,c,l\nR\t1\tr2\tdeny\tb,k\nR\t1\tr3\tpermit\td,e,f\n");
    EVERY(598, "M\tx\t" SIX "\nM\ty\t" SIX "\nP\t0\ttop\tdeny-overrides\t*\t*\nR\t1\tr1\tpermit\ta,f\tb,e\nR\t1\tr2\tdeny\tc\t*\nR\t1\tr3\tdeny\t*\td\n");
    EVERY(48, "A\tv\tone\ttwo\nM\tRole\tTech\tguest\taud\nM\tonly\tthis\nA\tact\tjog\tteach\tpick\nM\tsite\tlab\troof\n"
             "S\t0\ttop\tpermit-overrides\t*\t*\t*\t*\t*\nS\t1\tone-of\tonly-one-applicable\ttwo\t*\t*\tjog,pick\t*\n"
             "P\t2\tp\tdeny-overrides\t*\tTech\t*\t*\tlab\nR\t3\tr1\tdeny\t*\tguest\t*\tpick\t*\nR\t3\tr2\tpermit\t*\t*\t*\t*\t*\n"
             "P\t2\tq\tfirst-applicable\t*\taud\t*\t*\t*\nR\t3\tr3\tdeny\t*\t*\t*\t*\troof\n"
             "P\t1\to\tfirst-applicable\tone\t*\t*\t*\t*\nR\t2\tr4\tpermit\t*\tguest\t*\tteach\troof\nR\t2\tr5\tdeny\t*\tTech,aud\t*\t*\t*\n");
}

/* The longest text: three values and 585 choices of the others, each pair indeterminate, each value alone not-applicable.
 * With other counts there are fewer lines, and not-applicable with both has it with each alone. */
static void longest(void) {
    static char file[2000], text[PAIRS_MOST];
    static const int counts[] = {13, 9, 5};
    size_t size = (size_t)sprintf(file, "M\tx\ta\tb\tc\n"), length = 0;
    for (int i = 0; i < 3; i++) {
        size += (size_t)sprintf(file + size, "A\t%c", 'w' - i);
        for (int value = 0; value < counts[i]; value++) size += (size_t)sprintf(file + size, "\t%c", 'a' + value);
        size += (size_t)sprintf(file + size, "\n");
    }
    size += (size_t)sprintf(file + size, "S\t0\ttop\tonly-one-applicable\t*\t*\t*\t*\n");
    for (char value = 'a'; value <= 'c'; value++) size += (size_t)sprintf(file + size, "P\t1\tp%c\tdeny-overrides\t%c\t*\t*\t*\n", value, value);
    for (int set = 2; set < 6; set++) {
        for (int choice = 0; choice < 585 && set != 3; choice++) {
            length += (size_t)sprintf(text + length, "D\t%d\tindeterminate\tnot-applicable\tnot-applicable\n", set * 585 + choice);
        }
    }
    check(length == 1755 * 51 && length > JOGIMADUVE_REPORT_BUFFER, "more than a report's buffer", __LINE__);
    lists(TEXT("x"), (const uint8_t *)file, size, (const uint8_t *)text, length, "1,755 lines", __LINE__);
}

int main(void) {
    decisions();
    numbers();
    twelve();
    named();
    refusals();
    every();
    longest();
    return checks_done();
}
