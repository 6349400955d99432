/* jogimaduve_step: the rule that is struck, the text left, the bytes behind it and around it; none left to strike; refusals. */
#include "held.h"

#define AB "A\tx\ta\tb\n"
#define TOP AB "P\t0\ttop\tfirst-applicable\t*\n"
#define ONE "R\t1\tOne\tpermit\ta\n"
#define TWIN "R\t1\ttwin\tpermit\ta\n"
#define ALL "R\t1\tall\tpermit\t*\n"
#define HEAD                                                                                  \
    "A\trole\ttech\tguest\nA\tact\tjog\tteach\nP\t0\tcell\tfirst-applicable\t*\t*\n"          \
    "R\t1\tr1\tpermit\ttech\t*\n"
#define H2 "R\t1\tr2\tdeny\tguest\tteach\n"
#define H3 "R\t1\tr3\tdeny\t*\tteach\n"
#define H4 "R\t1\tr4\tpermit\ttech\tjog\n"
#define NINE "A\tx\ta\tb\tc\nP\t0\ttop\tfirst-applicable\t*\nR\t1\tr1\tpermit\ta\nR\t1\tr2\tdeny\ta,b\nR\t1\tr3\tpermit\ta,c\n"
/* r2 does work while r1 is there */
#define AGAIN_TOP AB "S\t0\ttop\tfirst-applicable\t*\nP\t1\tp0\tdeny-overrides\tb\n"
#define AGAIN_REST "P\t1\tp1\tfirst-applicable\t*\nR\t2\tr3\tdeny\t*\n"
/* s gives the same as r does, but its policy has an obligation of its own */
#define BOTH(log, slow) AB "S\t0\ttop\tdeny-overrides\t*\nP\t1\tp\tfirst-applicable\t*\n" log "R\t2\tr\tpermit\t*\nP\t1\tq\tfirst-applicable\t*\n" slow
#define S "R\t2\ts\tpermit\ta\n"
#define RIVALS(one, other, rule)                                                                                            \
    AB "S\t0\ttop\tfirst-applicable\t*\nP\t1\tp\tfirst-applicable\t*\nO\t" one "\tpermit\n" rule "P\t1\tq\tfirst-applicable\t*\n" \
       "O\t" other "\tpermit\nO\tstop\tdeny\nR\t2\ts\tpermit\t*\n"
#define R "R\t2\tr\tpermit\ta\n"
#define BADGE "M\tRole\tTech\tguest\tLead\nA\tact\tJog\tteach\nP\t0\tCell\tfirst-applicable\t*\t*\n"
#define B1 "R\t1\tR1\tpermit\tTech,guest\t*\n"
#define B2 "R\t1\tRule-Two\tpermit\tTech\tJog\n"
#define B3 "R\t1\tr3\tdeny\tguest\t*\n"
#define B4 "R\t1\tr4\tdeny\t*\tteach\n"

static struct held held;

#define HOLD(file) hold(&held, TEXT(file))
/* In the same memory: what stands behind it stays. */
#define PUT(file) (memcpy(text_of(&held), file, sizeof(file) - 1), held.length = sizeof(file) - 1)
#define STRUCK(left) steps(&held, 1, TEXT(left), #left, __LINE__)
#define NONE(text) steps(&held, 0, TEXT(text), #text, __LINE__)
/* The bytes from the text's start on, those behind its end too. */
#define STANDS(bytes) check(memcmp(text_of(&held), bytes, sizeof(bytes) - 1) == 0, #bytes, __LINE__)

static void orders(void) {
    HOLD(HEAD H2 H3 H4);
    STRUCK(HEAD H2 H3);
    STRUCK(HEAD H2);
    NONE(HEAD H2);
    NONE(HEAD H2);
    NONE(HEAD H2);
    /* the last line each time, so that nothing moved */
    STANDS(HEAD H2 H3 H4);
    /* equal rules: the later, and one stays */
    HOLD(TOP ONE TWIN);
    STRUCK(TOP ONE);
    NONE(TOP ONE);
    HOLD(TOP TWIN ONE);
    STRUCK(TOP TWIN);
    NONE(TOP TWIN);
    HOLD(NINE "R\t1\tr4\tdeny\tb\n");
    STRUCK(NINE);
    NONE(NINE);
    /* the search starts again at the last line */
    HOLD(AGAIN_TOP "R\t2\tr1\tpermit\t*\nR\t2\tr2\tdeny\tb\n" AGAIN_REST);
    STRUCK(AGAIN_TOP "R\t2\tr2\tdeny\tb\n" AGAIN_REST);
    STRUCK(AGAIN_TOP AGAIN_REST);
    NONE(AGAIN_TOP AGAIN_REST);
    /* no rule; the only rule, whose policy stays */
    HOLD(TOP);
    NONE(TOP);
    NONE(TOP);
    HOLD(AGAIN_TOP "S\t1\tbare\tonly-one-applicable\t*\n");
    NONE(AGAIN_TOP "S\t1\tbare\tonly-one-applicable\t*\n");
    HOLD(AB "S\t0\ttop\tonly-one-applicable\t*\nP\t1\tp\tdeny-overrides\t*\nP\t1\tq\tdeny-overrides\t*\nR\t2\tr\tpermit\t*\n");
    STRUCK(AB "S\t0\ttop\tonly-one-applicable\t*\nP\t1\tp\tdeny-overrides\t*\nP\t1\tq\tdeny-overrides\t*\n");
    NONE(AB "S\t0\ttop\tonly-one-applicable\t*\nP\t1\tp\tdeny-overrides\t*\nP\t1\tq\tdeny-overrides\t*\n");
}

/* What moves down is as long as the struck line, shorter, longer; the old bytes stand behind it. */
static void moves(void) {
    HOLD(TOP ONE ALL);
    STRUCK(TOP ALL);
    STANDS(TOP ALL ALL);
    NONE(TOP ALL);
    STANDS(TOP ALL ALL);
    HOLD(TOP "R\t1\tname-of-16-bytes\tpermit\ta\n" ALL);
    STRUCK(TOP ALL);
    STANDS(TOP ALL "tes\tpermit\ta\n" ALL);
    HOLD(TOP "R\t1\tr\tpermit\ta\n" ALL);
    STRUCK(TOP ALL);
    STANDS(TOP ALL "1\tall\tpermit\t*\n");
    NONE(TOP ALL);
    /* the second step moves nothing but the text: what the first left behind it stays */
    HOLD(TOP "R\t1\tr\tdeny\tb\nR\t1\tsame\tdeny\tb\n" ALL "R\t1\tend\tdeny\ta\n");
    STRUCK(TOP "R\t1\tr\tdeny\tb\nR\t1\tsame\tdeny\tb\n" ALL);
    STRUCK(TOP "R\t1\tr\tdeny\tb\n" ALL);
    STANDS(TOP "R\t1\tr\tdeny\tb\n" ALL "\t1\tall\tpermit\t*\nR\t1\tend\tdeny\ta\n");
    NONE(TOP "R\t1\tr\tdeny\tb\n" ALL);
}

static void obligations(void) {
    HOLD(BOTH("O\tlog\tpermit\n", "O\tslow\tpermit\n") S);
    NONE(BOTH("O\tlog\tpermit\n", "O\tslow\tpermit\n") S);
    HOLD(BOTH("O\tlog\tpermit\n", "O\tslow\tdeny\n") S);
    STRUCK(BOTH("O\tlog\tpermit\n", "O\tslow\tdeny\n"));
    NONE(BOTH("O\tlog\tpermit\n", "O\tslow\tdeny\n"));
    /* those of the policy behind move along */
    HOLD(RIVALS("log", "log", R));
    STRUCK(RIVALS("log", "log", ""));
    NONE(RIVALS("log", "log", ""));
    HOLD(RIVALS("log", "Log", R));
    NONE(RIVALS("log", "Log", R));
    HOLD(RIVALS("log", "lag", R) "R\t2\tt\tdeny\t*\nR\t2\tu\tpermit\tb\n");
    STRUCK(RIVALS("log", "lag", R) "R\t2\tt\tdeny\t*\n");
    STRUCK(RIVALS("log", "lag", R));
    NONE(RIVALS("log", "lag", R));
    /* directly behind obligations, whose lines stay; names of rules that are theirs too */
    HOLD(TOP "O\tlog\tpermit\nO\tOne\tdeny\n" ONE TWIN);
    STRUCK(TOP "O\tlog\tpermit\nO\tOne\tdeny\n" ONE);
    HOLD(TOP "O\tlog\tpermit\nO\tone\tdeny\n" ONE ALL);
    STRUCK(TOP "O\tlog\tpermit\nO\tone\tdeny\n" ALL);
    NONE(TOP "O\tlog\tpermit\nO\tone\tdeny\n" ALL);
}

static void sets_and_capitals(void) {
    HOLD(BADGE B1 B2 B3 B4);
    STRUCK(BADGE B1 B2 B4);
    STRUCK(BADGE B1 B4);
    NONE(BADGE B1 B4);
    /* a needs r1 where the badge has b, too */
    HOLD("M\tx\ta\tb\tc\nP\t0\ttop\tfirst-applicable\t*\nR\t1\tr1\tpermit\ta\nR\t1\tr2\tdeny\tb\nR\t1\tr3\tpermit\ta,c\n");
    NONE("M\tx\ta\tb\tc\nP\t0\ttop\tfirst-applicable\t*\nR\t1\tr1\tpermit\ta\nR\t1\tr2\tdeny\tb\nR\t1\tr3\tpermit\ta,c\n");
    HOLD("A\tx\ta\tb\tc\nP\t0\ttop\tfirst-applicable\t*\nR\t1\tr1\tpermit\ta\nR\t1\tr2\tdeny\tb\nR\t1\tr3\tpermit\ta,c\n");
    STRUCK("A\tx\ta\tb\tc\nP\t0\ttop\tfirst-applicable\t*\nR\t1\tr2\tdeny\tb\nR\t1\tr3\tpermit\ta,c\n");
}

/* A step that reading refuses changes nothing. */
static void refuses_step(uint32_t number, uint32_t second, const char *what, int line) {
    static struct held before;
    before = held;
    jogimaduve_stepped got = jogimaduve_step(text_of(&held), held.length);
    answers((jogimaduve_answer){got.number, got.second}, number, second, what, line);
    check(got.struck == 0, what, line);
    check(memcmp(held.memory, before.memory, sizeof held.memory) == 0, what, line);
    check(steps_alone(text_of(&before), held.length, got, text_of(&before)), what, line);
}

static void refused(const uint8_t *file, size_t size, uint32_t number, uint32_t second, const char *what, int line) {
    hold(&held, file, size);
    refuses_step(number, second, what, line);
    refuses_step(number, second, what, line);
}

#define REFUSED(file, number, second) refused(TEXT(file), number, second, #file, __LINE__)

/* Each with a rule in it that would be struck, where that can be. */
static void refusals(void) {
    static uint8_t file[MOST_BYTES];
    size_t size = sizeof TOP ONE TWIN - 1;
    memset(file, '\n', sizeof file);
    memcpy(file, TOP ONE TWIN, size);
    refused(file, sizeof file, 1, 0, "16,385 bytes", __LINE__);
    refused(file, sizeof file - 1, 2, 5, "16,384 bytes", __LINE__);
    refused(file, size + 1, 2, 5, "an empty line", __LINE__);
    REFUSED("", 9, 0);
    REFUSED("\n", 2, 1);
    REFUSED(TOP ONE "R\t1\ttwin\tpermit\ta", 2, 4);
    REFUSED(TOP ONE TWIN "\t\n", 2, 5);
    REFUSED(TOP ONE TWIN "R\t1\tr\tpermit\ta\t*\n", 2, 5);
    REFUSED("A\tx\ta\r\n" TOP ONE TWIN, 2, 1);
    REFUSED(TOP ONE TWIN "R\t1\tr_\tpermit\ta\n", 3, 5);
    REFUSED(TOP ONE "R\t1\tname-of-17-bytes-\tpermit\ta\n", 3, 4);
    REFUSED(TOP ONE "R\t1\tONE\tpermit\ta\n", 4, 4);
    REFUSED(TOP ONE TWIN "R\t1\ttop\tpermit\ta\n", 4, 5);
    REFUSED("A\tx\t0\t1\t2\t3\t4\t5\t6\t7\t8\t9\ta\tb\tc\td\te\tf\tg\n", 5, 1);
    REFUSED(TOP ONE TWIN "A\ty\ta\n", 6, 5);
    REFUSED(TOP ONE TWIN "R\t2\tr\tpermit\ta\n", 6, 5);
    REFUSED(TOP ONE TWIN "R\t1\tr\tPermit\ta\n", 7, 5);
    REFUSED(TOP ONE TWIN "R\t1\tr\tpermit\ta,b\n", 8, 5);
    REFUSED(TOP ONE TWIN "R\t1\tr\tpermit\tA\n", 8, 5);
    REFUSED(AB, 9, 0);
    REFUSED(TOP ONE TWIN "O\tlog\tpermit\n", 14, 5);
    REFUSED(TOP "O\tlog\tpermit\nO\tslow\tdeny\nO\tthird\tdeny\n" ONE TWIN, 14, 5);
    for (int i = 0; i < 62; i++) size += (size_t)sprintf((char *)file + size, "R\t1\tr%d\tpermit\ta\n", i);
    refused(file, size, 5, 66, "65 elements", __LINE__);
}

/* The length given is where the text ends, whatever stands behind it. */
static void lengths(void) {
    static const char file[] = HEAD H2 H3 H4;
    static const char *const left[] = {HEAD H2, HEAD H2 H3};
    int lines = 0;
    for (size_t length = 0; length < sizeof file; lines += file[length++] == '\n') {
        int whole = length == 0 || file[length - 1] == '\n';
        HOLD(HEAD H2 H3 H4);
        held.length = length;
        if (!whole) refuses_step(2, (uint32_t)lines + 1, "a line that is cut", __LINE__);
        else if (lines < 3) refuses_step(9, 0, "attribute lines alone", __LINE__);
        else if (lines < 6) steps(&held, 0, (const uint8_t *)file, length, "the lines above", __LINE__);
        else steps(&held, 1, (const uint8_t *)left[lines - 6], strlen(left[lines - 6]), "the lines above", __LINE__);
    }
    check(lines == 7, "the whole file", __LINE__);
}

/* A text of the same length in the same place is another file: nothing is kept of the one before. */
static void fresh(void) {
    HOLD(TOP ONE TWIN);
    STRUCK(TOP ONE);
    HOLD(TOP TWIN ONE);
    STRUCK(TOP TWIN);
    HOLD(TOP ONE TWIN);
    STRUCK(TOP ONE);
    HOLD(TOP ALL);
    NONE(TOP ALL);
    HOLD(TOP ONE);
    NONE(TOP ONE);
    /* the struck rule is put back, then another in its place */
    PUT(TOP ONE TWIN);
    STRUCK(TOP ONE);
    PUT(TOP TWIN ONE);
    STRUCK(TOP TWIN);
    /* a bad name, which is then mended */
    HOLD(TOP ONE "R\t1\ttwi_\tpermit\ta\n");
    check(is_step(jogimaduve_step(text_of(&held), held.length), 3, 4, 0), "a bad name", __LINE__);
    PUT(TOP ONE TWIN);
    STRUCK(TOP ONE);
}

int main(void) {
    orders();
    moves();
    obligations();
    sets_and_capitals();
    refusals();
    lengths();
    fresh();
    return checks_done();
}
