/* jogimaduve_next_rule and jogimaduve_strike: orders, names, the bytes behind the text, short buffers, refusals, and both to
 * the end. */
#include "text.h"

#define AB "A\tx\ta\tb\n"
#define TOP AB "P\t0\ttop\tfirst-applicable\t*\n"
#define ONE "R\t1\tOne\tpermit\ta\n"
#define TWIN "R\t1\ttwin\tpermit\ta\n"
#define LONG "R\t1\tname-of-16-bytes\tpermit\ta\n"
#define HEAD                                                                                  \
    "A\trole\ttech\tguest\nA\tact\tjog\tteach\nP\t0\tcell\tfirst-applicable\t*\t*\n"          \
    "R\t1\tr1\tpermit\ttech\t*\n"
#define H2 "R\t1\tr2\tdeny\tguest\tteach\n"
#define H3 "R\t1\tr3\tdeny\t*\tteach\n"
#define H4 "R\t1\tr4\tpermit\ttech\tjog\n"
#define NINE "A\tx\ta\tb\tc\nP\t0\ttop\tfirst-applicable\t*\n"
#define N1 "R\t1\tr1\tpermit\ta\n"
#define N2 "R\t1\tr2\tdeny\ta,b\n"
#define N3 "R\t1\tr3\tpermit\ta,c\n"
#define N4 "R\t1\tr4\tdeny\tb\n"
/* r2 does work while r1 is there */
#define AGAIN_TOP AB "S\t0\ttop\tfirst-applicable\t*\nP\t1\tp0\tdeny-overrides\tb\n"
#define AGAIN_REST "P\t1\tp1\tfirst-applicable\t*\nR\t2\tr3\tdeny\t*\n"
/* s gives the same as r does, but its policy has an obligation of its own */
#define BOTH(log, slow) AB "S\t0\ttop\tdeny-overrides\t*\nP\t1\tp\tfirst-applicable\t*\n" log "R\t2\tr\tpermit\t*\nP\t1\tq\tfirst-applicable\t*\n" slow
#define S "R\t2\ts\tpermit\ta\n"
#define RIVALS(one, other, rule)                                                                                            \
    AB "S\t0\ttop\tfirst-applicable\t*\nP\t1\tp\tfirst-applicable\t*\nO\t" one "\tpermit\n" rule "P\t1\tq\tfirst-applicable\t*\n" \
       "O\t" other "\tpermit\nR\t2\ts\tpermit\t*\n"
#define R "R\t2\tr\tpermit\ta\n"

/* The rule that `strike` is asked for. */
static const uint8_t *rule;
static size_t rule_length;

static jogimaduve_answer strike(const uint8_t *file, size_t size, uint8_t *out, size_t room) {
    return jogimaduve_strike(file, size, rule, rule_length, out, room);
}

static void strikes(const uint8_t *name, size_t length, const uint8_t *file, size_t size, const uint8_t *left, size_t left_length, const char *what, int line) {
    rule = name;
    rule_length = length;
    gives(strike, file, size, left, left_length, what, line);
}

/* Also in no buffer: the refusal is no 11. */
static void keeps(const uint8_t *name, size_t length, const uint8_t *file, size_t size, uint32_t number, uint32_t second, const char *what, int line) {
    rule = name;
    rule_length = length;
    refuses(strike, file, size, number, second, what, line);
    answers(strike(file, size, buffer, 0), number, second, what, line);
}

#define SHOWS(file, name) gives(jogimaduve_next_rule, TEXT(file), TEXT(name), #file, __LINE__)
#define NONE(file) SHOWS(file, "")
#define STRIKES(file, name, left) strikes(TEXT(name), TEXT(file), TEXT(left), #name " of " #file, __LINE__)
#define REFUSES(file, name, number, second) keeps(TEXT(name), TEXT(file), number, second, #name " of " #file, __LINE__)
#define KEEPS(file, name) REFUSES(file, name, 15, 0)

static void orders(void) {
    /* r2 and r3: each is needless alone, but not both */
    SHOWS(HEAD H2 H3 H4, "r4");
    STRIKES(HEAD H2 H3 H4, "r4", HEAD H2 H3);
    STRIKES(HEAD H2 H3 H4, "r3", HEAD H2 H4);
    STRIKES(HEAD H2 H3 H4, "r2", HEAD H3 H4);
    KEEPS(HEAD H2 H3 H4, "r1");
    SHOWS(HEAD H2 H3, "r3");
    SHOWS(HEAD H2 H4, "r4");
    SHOWS(HEAD H3 H4, "r4");
    NONE(HEAD H2);
    NONE(HEAD H3);
    KEEPS(HEAD H2, "r2");
    KEEPS(HEAD H3, "r3");
    /* equal rules: the later is shown, the earlier may be struck */
    SHOWS(TOP ONE TWIN, "twin");
    SHOWS(TOP TWIN ONE, "One");
    STRIKES(TOP ONE TWIN, "twin", TOP ONE);
    STRIKES(TOP ONE TWIN, "One", TOP TWIN);
    KEEPS(TOP TWIN, "twin");
    /* another order ends in another text */
    SHOWS(NINE N1 N2 N3 N4, "r4");
    STRIKES(NINE N1 N2 N3 N4, "r4", NINE N1 N2 N3);
    NONE(NINE N1 N2 N3);
    STRIKES(NINE N1 N2 N3 N4, "r2", NINE N1 N3 N4);
    SHOWS(NINE N1 N3 N4, "r1");
    STRIKES(NINE N1 N3 N4, "r1", NINE N3 N4);
    NONE(NINE N3 N4);
    KEEPS(NINE N1 N2 N3 N4, "r1");
    KEEPS(NINE N1 N2 N3 N4, "r3");
    /* trimming strikes it, but not yet */
    SHOWS(AGAIN_TOP "R\t2\tr1\tpermit\t*\nR\t2\tr2\tdeny\tb\n" AGAIN_REST, "r1");
    KEEPS(AGAIN_TOP "R\t2\tr1\tpermit\t*\nR\t2\tr2\tdeny\tb\n" AGAIN_REST, "r2");
    SHOWS(AGAIN_TOP "R\t2\tr2\tdeny\tb\n" AGAIN_REST, "r2");
    STRIKES(AGAIN_TOP "R\t2\tr2\tdeny\tb\n" AGAIN_REST, "r2", AGAIN_TOP AGAIN_REST);
    /* no rule: sets and policies stay, also when empty */
    NONE(TOP);
    KEEPS(TOP, "top");
    KEEPS(TOP, "r1");
    KEEPS(AGAIN_TOP AGAIN_REST, "p0");
    KEEPS(AGAIN_TOP AGAIN_REST, "p1");
    KEEPS(AGAIN_TOP AGAIN_REST, "TOP");
    NONE(AGAIN_TOP "S\t1\tbare\tonly-one-applicable\t*\n");
    KEEPS(AGAIN_TOP "S\t1\tbare\tonly-one-applicable\t*\n", "bare");
}

#define SIXTEEN "a\tb\tc\td\te\tf\tg\th\ti\tj\tk\tl\tm\tn\to\tp\n"
#define CUBE(rules) "A\tx\t" SIXTEEN "A\ty\t" SIXTEEN "A\tz\t" SIXTEEN "P\t0\ttop\tfirst-applicable\t*\t*\t*\n" rules
#define REST "R\t1\trest\tpermit\t*\t*\t*\n"

/* 4,096 requests, of which one needs the rule: the first, the last of 64, the first of the next, the last of all. */
static void requests(void) {
    KEEPS(CUBE("R\t1\tr\tdeny\ta\ta\ta\n" REST), "r");
    KEEPS(CUBE("R\t1\tr\tdeny\ta\td\tp\n" REST), "r");
    KEEPS(CUBE("R\t1\tr\tdeny\ta\te\ta\n" REST), "r");
    KEEPS(CUBE("R\t1\tr\tdeny\tp\tp\tp\n" REST), "r");
    NONE(CUBE("R\t1\tr\tdeny\ta\te\ta\n" REST));
    NONE(CUBE("R\t1\tr\tdeny\tp\tp\tp\n" REST));
    SHOWS(CUBE("R\t1\tr\tpermit\tp\tp\tp\n" REST), "r");
    STRIKES(CUBE("R\t1\tr\tpermit\tp\tp\tp\n" REST), "r", CUBE(REST));
}

static void obligations(void) {
    NONE(BOTH("O\tlog\tpermit\n", "O\tslow\tpermit\n") S);
    KEEPS(BOTH("O\tlog\tpermit\n", "O\tslow\tpermit\n") S, "s");
    KEEPS(BOTH("O\tlog\tpermit\n", "O\tslow\tpermit\n") S, "slow");
    SHOWS(BOTH("O\tlog\tpermit\n", "O\tslow\tdeny\n") S, "s");
    STRIKES(BOTH("O\tlog\tpermit\n", "O\tslow\tdeny\n") S, "s", BOTH("O\tlog\tpermit\n", "O\tslow\tdeny\n"));
    SHOWS(BOTH("", "") S, "s");
    /* the same bytes come without r, or others */
    SHOWS(RIVALS("log", "log", R), "r");
    STRIKES(RIVALS("log", "log", R), "r", RIVALS("log", "log", ""));
    NONE(RIVALS("log", "Log", R));
    KEEPS(RIVALS("log", "Log", R), "r");
    KEEPS(RIVALS("log", "lag", R), "r");
    /* directly behind obligations, whose lines stay */
    STRIKES(TOP "O\tlog\tpermit\nO\tslow\tdeny\n" ONE TWIN, "One", TOP "O\tlog\tpermit\nO\tslow\tdeny\n" TWIN);
}

static void names(void) {
    STRIKES(TOP ONE TWIN, "one", TOP TWIN);
    STRIKES(TOP ONE TWIN, "oNE", TOP TWIN);
    STRIKES(TOP ONE TWIN, "TWIN", TOP ONE);
    SHOWS(TOP ONE LONG, "name-of-16-bytes");
    STRIKES(TOP ONE LONG, "Name-of-16-byteS", TOP ONE);
    KEEPS(TOP ONE LONG, "name-of-16-byte");
    KEEPS(TOP ONE LONG, "name-of-16-bytes-");
    KEEPS(TOP ONE LONG, "name-of-16-bytess");
    /* a policy, an attribute, a value, a word, a letter, nothing; not the name to the end, or more */
    KEEPS(TOP ONE TWIN, "top");
    KEEPS(TOP ONE TWIN, "Top");
    KEEPS(TOP ONE TWIN, "x");
    KEEPS(TOP ONE TWIN, "a");
    KEEPS(TOP ONE TWIN, "permit");
    KEEPS(TOP ONE TWIN, "R");
    KEEPS(TOP ONE TWIN, "*");
    KEEPS(TOP ONE TWIN, "nothing");
    KEEPS(TOP ONE TWIN, "");
    KEEPS(TOP ONE TWIN, "On");
    KEEPS(TOP ONE TWIN, "ne");
    KEEPS(TOP ONE TWIN, "Ones");
    KEEPS(TOP ONE TWIN, "One\x00");
    KEEPS(TOP ONE TWIN, "One\n");
    KEEPS(TOP ONE TWIN, "One\t");
    KEEPS(TOP ONE TWIN, "\tOne");
    KEEPS(TOP ONE TWIN, "One,twin");
    KEEPS(TOP ONE TWIN, "One\ntwin");
    KEEPS(TOP ONE TWIN, "1\tOne");
    KEEPS(TOP ONE TWIN, ONE);
    /* another byte by the bit that tells A from a, or by another bit */
    KEEPS(TOP ONE "R\t1\tr-0\tpermit\ta\n", "r\r0");
    KEEPS(TOP ONE "R\t1\tr-0\tpermit\ta\n", "r-\x10");
    KEEPS(TOP ONE TWIN, "\xcfne");
    /* a name of several pools is that of the rule */
    STRIKES(AB "P\t0\ttop\tfirst-applicable\t*\nO\ta\tpermit\nR\t1\tx\tpermit\ta\nR\t1\ta\tpermit\ta\n", "X",
            AB "P\t0\ttop\tfirst-applicable\t*\nO\ta\tpermit\nR\t1\ta\tpermit\ta\n");
    STRIKES(AB "P\t0\ttop\tfirst-applicable\t*\nO\ta\tpermit\nR\t1\tx\tpermit\ta\nR\t1\ta\tpermit\ta\n", "A",
            AB "P\t0\ttop\tfirst-applicable\t*\nO\ta\tpermit\nR\t1\tx\tpermit\ta\n");
}

/* Each length of a buffer up to a byte more than is needed. */
static void every_fit(operation *run, const char *file, const char *text, int line) {
    size_t needed = strlen(text);
    for (size_t room = 0; room <= needed + 1; room++) {
        int fits = room >= needed;
        memset(buffer, FILLED, ROOM);
        answers(run((const uint8_t *)file, strlen(file), buffer, room), fits ? 0 : 11, (uint32_t)needed, file, line);
        check(memcmp(buffer, text, fits ? needed : 0) == 0 && untouched(fits ? needed : 0), file, line);
    }
}

static void rooms(void) {
    every_fit(jogimaduve_next_rule, TOP ONE TWIN, "twin", __LINE__);
    every_fit(jogimaduve_next_rule, TOP ONE LONG, "name-of-16-bytes", __LINE__);
    every_fit(jogimaduve_next_rule, TOP ONE, "", __LINE__);
    rule = (const uint8_t *)"twin";
    rule_length = 4;
    every_fit(strike, TOP ONE TWIN, TOP ONE, __LINE__);
    every_fit(strike, TOP TWIN ONE, TOP ONE, __LINE__);
    /* 15 in a buffer that would do for another rule, or for none */
    for (size_t room = 0; room <= sizeof TOP ONE; room++) {
        memset(buffer, FILLED, ROOM);
        answers(strike(TEXT(TOP TWIN), buffer, room), 15, 0, "a needed rule", __LINE__);
        check(untouched(0), "a needed rule", __LINE__);
    }
}

static void refusals(void) {
    static const char *const given[] = {"r1", "R1", "top", "nothing", "", "\n", "name-of-17-bytes-"};
    refuses_bad_files(jogimaduve_next_rule);
    refuses(jogimaduve_next_rule, TEXT(NINE N1 "R\t1\tR1\tpermit\ta\n"), 4, 4, "a name twice", __LINE__);
    refuses(jogimaduve_next_rule, TEXT(NINE N1 "O\tlog\tpermit\n"), 14, 4, "an obligation of a rule", __LINE__);
    answers(jogimaduve_next_rule(TEXT(NINE N1 "O\tlog\tpermit\n"), buffer, 0), 14, 4, "no buffer", __LINE__);
    for (size_t i = 0; i < sizeof given / sizeof *given; i++) {
        rule = (const uint8_t *)given[i];
        rule_length = strlen(given[i]);
        refuses_bad_files(strike);
        keeps(rule, rule_length, TEXT(NINE N1 "R\t1\tR1\tpermit\ta\n"), 4, 4, given[i], __LINE__);
        keeps(rule, rule_length, TEXT(NINE N1 "O\tlog\tpermit\n"), 14, 4, given[i], __LINE__);
        keeps(rule, rule_length, TEXT(AB), 9, 0, given[i], __LINE__);
    }
}

/* Shows and strikes, each time in what is left; the end is the trimmed text, and the rules are those that the report says are
 * struck, in its order. */
static void to_the_end(const char *file, int strikes_wanted, int line) {
    static uint8_t texts[2][JOGIMADUVE_LONGEST_FILE];
    static char struck[64 * (JOGIMADUVE_LONGEST_NAME + 3) + 1], report[JOGIMADUVE_REPORT_BUFFER];
    const uint8_t *left = (const uint8_t *)file;
    uint8_t name[JOGIMADUVE_LONGEST_NAME];
    size_t size = strlen(file), length = 0;
    int done = 0;
    for (jogimaduve_answer shown; done <= 64 && (shown = jogimaduve_next_rule(left, size, name, sizeof name)).second > 0; done++) {
        jogimaduve_answer got = jogimaduve_strike(left, size, name, shown.second, texts[done % 2], sizeof texts[0]);
        check(shown.number == 0 && got.number == 0 && got.second < size, file, line);
        if (got.number != 0) return;
        length += (size_t)sprintf(struck + length, "X\t%.*s\n", (int)shown.second, (const char *)name);
        left = texts[done % 2];
        size = got.second;
    }
    check(done == strikes_wanted, file, line);
    gives(jogimaduve_trim, (const uint8_t *)file, strlen(file), left, size, file, line);
    jogimaduve_answer told = jogimaduve_report((const uint8_t *)file, strlen(file), (uint8_t *)report, sizeof report - 1);
    check(told.number == 0, file, line);
    report[told.second] = '\0';
    struck[length] = '\0';
    const char *first = strstr(report, "\nX\t");
    check(length == 0 ? first == NULL : first != NULL && strncmp(first + 1, struck, length) == 0 && first[1 + length] != 'X', file, line);
}

/* 62 rules over 256 requests, each of the later half the equal of an earlier one. */
static void many(void) {
    static char file[JOGIMADUVE_LONGEST_FILE];
    size_t size = 0;
    for (char name = 'x'; name <= 'y'; name++) {
        size += (size_t)sprintf(file + size, "A\t%c", name);
        for (char value = 'a'; value <= 'p'; value++) size += (size_t)sprintf(file + size, "\t%c", value);
        size += (size_t)sprintf(file + size, "\n");
    }
    size += (size_t)sprintf(file + size, "S\t0\ttop\tdeny-overrides\t*\t*\nP\t1\tp\tfirst-applicable\t*\t*\n");
    for (int i = 0; i < 62; i++) {
        size += (size_t)sprintf(file + size, "R\t2\tr%d\t%s\t%c\t%c\n", i, i % 31 % 2 == 0 ? "permit" : "deny", 'a' + i % 31 % 16, 'a' + i % 31 / 16);
    }
    to_the_end(file, 31, __LINE__);
}

static void ends(void) {
    to_the_end(HEAD H2 H3 H4, 2, __LINE__);
    to_the_end(TOP ONE TWIN LONG, 2, __LINE__);
    to_the_end(NINE N1 N2 N3 N4, 1, __LINE__);
    to_the_end(AGAIN_TOP "R\t2\tr1\tpermit\t*\nR\t2\tr2\tdeny\tb\n" AGAIN_REST, 2, __LINE__);
    to_the_end(TOP, 0, __LINE__);
    to_the_end(BOTH("O\tlog\tpermit\n", "O\tslow\tpermit\n") S, 0, __LINE__);
    to_the_end(BOTH("O\tlog\tpermit\n", "O\tslow\tdeny\n") S, 1, __LINE__);
    to_the_end(RIVALS("log", "log", R), 1, __LINE__);
    to_the_end(RIVALS("log", "lag", R) "R\t2\tt\tdeny\t*\nR\t2\tu\tpermit\tb\n", 2, __LINE__);
    to_the_end("M\tx\ta\tb\tc\nP\t0\ttop\tfirst-applicable\t*\nR\t1\tr1\tpermit\ta,b\nR\t1\tr2\tpermit\ta\nR\t1\tr3\tpermit\tb,c\nR\t1\tr4\tdeny\tb\n", 2, __LINE__);
    many();
}

int main(void) {
    orders();
    requests();
    obligations();
    names();
    rooms();
    refusals();
    ends();
    return checks_done();
}
