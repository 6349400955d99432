/* Names: they may hold capitals, and are equal if they differ only in letter case. Nothing else is. */
#include "check.h"

#define TOP "P\t0\ttop\tdeny-overrides\t*\n"
#define TOP2 "P\t0\ttop\tdeny-overrides\t*\t*\n"
#define CELL                                                                             \
    "A\tRole\tTech\tguest\nA\tACT\tJog\tteach\nP\t0\tCell\tfirst-applicable\t*\t*\n"     \
    "R\t1\tR1\tpermit\tTech\t*\nR\t1\trZ\tdeny\tguest\tteach\n"

#define REFUSES(file, number, second) DECIDES(file, "nothing", number, second)

/* The same of a file and a request that were put together. */
static void decides(const char *file, const char *request, uint32_t number, uint32_t second, int line) {
    answers(bare_decision((const uint8_t *)file, strlen(file), (const uint8_t *)request, strlen(request)), number, second, file, line);
}

#define KEPT "A\tx\tw\n" TOP "R\t1\tkept\tpermit\t*\n"

/* A rule of this name that does no work, and a name given to strike it. */
static void strikes(const char *name, const char *given, uint32_t number, int line) {
    char file[120];
    uint8_t text[120];
    size_t size = (size_t)sprintf(file, KEPT "R\t1\t%s\tpermit\t*\n", name);
    jogimaduve_answer got = jogimaduve_strike((const uint8_t *)file, size, (const uint8_t *)given, strlen(given), text, sizeof text);
    answers(got, number, number == 0 ? sizeof KEPT - 1 : 0, given, line);
}

/* The same rule struck by a step: it has a line of its own, whatever its name. */
static void steps(const char *name, int line) {
    uint8_t text[120];
    size_t size = (size_t)sprintf((char *)text, KEPT "R\t1\t%s\tpermit\t*\n", name);
    jogimaduve_stepped got = jogimaduve_step(text, size);
    answers((jogimaduve_answer){got.number, got.second}, 0, sizeof KEPT - 1, name, line);
    check(got.struck == 1, name, line);
}

/* A file with one name as the original, with another as the proposal. Lines are compared to the byte: letter case counts. */
static void proposes(const char *file, const char *name, const char *other, uint32_t number, uint32_t second, int line) {
    char original[120], proposal[120];
    sprintf(original, file, name);
    sprintf(proposal, file, other);
    jogimaduve_answer got = jogimaduve_accept((const uint8_t *)original, strlen(original), (const uint8_t *)proposal, strlen(proposal));
    answers(got, number, second, other, line);
}

static void requests(void) {
    GIVES(CELL, "Tech\tJog", JOGIMADUVE_PERMIT);
    GIVES(CELL, "tech\tjog", JOGIMADUVE_PERMIT);
    GIVES(CELL, "tECH\tTEACH", JOGIMADUVE_PERMIT);
    GIVES(CELL, "GUEST\tteacH", JOGIMADUVE_DENY);
    GIVES(CELL, "Guest\tjOG", JOGIMADUVE_NOT_APPLICABLE);
    DECIDES(CELL, "TEC\tjog", 10, 1);
    DECIDES(CELL, "TECH\tjogg", 10, 2);
    DECIDES(CELL, "TECH", 10, 0);
    /* what is a value but for a bit is none, unless that bit tells A from a */
    GIVES("A\tx\tn0\tn-\n" TOP, "N0", JOGIMADUVE_NOT_APPLICABLE);
    DECIDES("A\tx\tn0\tn-\n" TOP, "n\x10", 10, 1);
    DECIDES("A\tx\tn0\tn-\n" TOP, "n\r", 10, 1);
    DECIDES("A\tx\tn0\tn-\n" TOP, "\xee" "0", 10, 1);
}

static void equal_names(void) {
    REFUSES("A\tRole\ta\nA\ty\ta\nA\trOLE\ta\n", 4, 3);
    REFUSES("A\tx\ta\tb\nA\ty\tTech\tguest\ttecH\n", 4, 2);
    REFUSES("A\tx\ta\nS\t0\tCell\tdeny-overrides\t*\nP\t1\tp\tdeny-overrides\t*\nR\t2\tcELL\tpermit\t*\n", 4, 4);
    /* each pool has its own names */
    GIVES("A\tx\tX\ty\nA\tY\tx\tY\nP\t0\tX\tdeny-overrides\t*\t*\nR\t1\ty\tpermit\tX\tx\n", "x\tX", JOGIMADUVE_PERMIT);
    /* the lowest number: 3 before 4, 4 before the rest */
    REFUSES("A\tx\ta\tA\ta@\n", 3, 1);
    REFUSES("A\tx\ta\tb\n" TOP "S\t9\tToP\tPermit\ta,b\n", 4, 3);
    REFUSES("A\tx\ta\tb\n" TOP "A\tX\ta\n", 4, 3);
}

static void targets(void) {
    GIVES("A\tx\tTech\tb\tc\n" TOP "R\t1\tr\tpermit\tTech,b\n", "TECH", JOGIMADUVE_PERMIT);
    REFUSES("A\tx\tTech\tb\tc\n" TOP "R\t1\tr\tpermit\ttech\n", 8, 3);
    REFUSES("A\tx\tTech\tb\tc\n" TOP "R\t1\tr\tpermit\tTECH,b\n", 8, 3);
    REFUSES("A\tx\tTech\tb\tc\n" TOP "R\t1\tr\tpermit\tTech,B\n", 8, 3);
    REFUSES("A\tx\tTech\tb\tc\n" TOP "R\t1\tr\tpermit\tTech,tech\n", 8, 3);
    REFUSES("A\tx\ta\tb\nA\ty\tTech\tb\n" TOP2 "R\t1\tr\tpermit\t*\ttecH\n", 8, 4);
}

/* Letters that start a line and words have no other case. */
static void letters_and_words(void) {
    REFUSES("a\tx\ta\n" TOP, 2, 1);
    REFUSES("A\tx\ta\ns\t0\ttop\tdeny-overrides\t*\n", 2, 2);
    REFUSES("A\tx\ta\np\t0\ttop\tdeny-overrides\t*\n", 2, 2);
    REFUSES("A\tx\ta\n" TOP "r\t1\tr\tpermit\t*\n", 2, 3);
    REFUSES("A\tx\ta\n" TOP "R\t1\tr\tPermit\t*\n", 7, 3);
    REFUSES("A\tx\ta\n" TOP "R\t1\tr\tDENY\t*\n", 7, 3);
    REFUSES("A\tx\ta\nP\t0\ttop\tDeny-overrides\t*\n", 7, 2);
    REFUSES("A\tx\ta\nP\t0\ttop\tpermit-overrideS\t*\n", 7, 2);
    REFUSES("A\tx\ta\nP\t0\ttop\tfirst-Applicable\t*\n", 7, 2);
    REFUSES("A\tx\ta\nS\t0\ttop\tONLY-ONE-APPLICABLE\t*\n", 7, 2);
    GIVES("A\tA\tS\tPermit\nP\t0\tR\tdeny-overrides\t*\nR\t1\tDENY\tpermit\tPermit\n", "PERMIT", JOGIMADUVE_PERMIT);
}

/* A file with one name of a pool, the name's line, a file with two, and the later one's line; a request for both. */
static const struct { const char *one; uint32_t line; const char *two; uint32_t later; const char *request; } pools[] = {
    {"A\t%s\tw\nA\ty\tw\n" TOP2, 1, "A\t%s\tw\nA\t%s\tw\n" TOP2, 2, "w\tw"},
    {"A\tx\tw\t%s\n" TOP, 1, "A\tx\tw\t%s\t%s\n" TOP, 1, "w"},
    {"A\tx\tw\nS\t0\t%s\tdeny-overrides\t*\n", 2, "A\tx\tw\nS\t0\t%s\tdeny-overrides\t*\nP\t1\t%s\tdeny-overrides\t*\n", 3, "w"},
};

/* Names that differ in one byte: a letter in other case, or a byte beside the letters and its like by that bit. */
static void pair(const char *name, const char *like, const char *unlike, int letter) {
    char file[120];
    for (int pool = 0; pool < 3; pool++) {
        sprintf(file, pools[pool].one, name);
        decides(file, pools[pool].request, letter ? 0 : 3, letter ? JOGIMADUVE_NOT_APPLICABLE : pools[pool].line, __LINE__);
        sprintf(file, pools[pool].two, name, like);
        decides(file, pools[pool].request, letter ? 4 : 3, letter ? pools[pool].later : pools[pool].line, __LINE__);
        sprintf(file, pools[pool].two, unlike, name);
        decides(file, pools[pool].request, letter ? 0 : 3, letter ? JOGIMADUVE_NOT_APPLICABLE : pools[pool].later, __LINE__);
        proposes(pools[pool].one, name, name, letter ? 0 : 3, letter ? 0 : pools[pool].line, __LINE__);
        proposes(pools[pool].one, name, like, letter ? 16 : 3, pools[pool].line, __LINE__);
        proposes(pools[pool].one, unlike, name, letter ? 16 : 3, pools[pool].line, __LINE__);
    }
    const char *value = letter ? name : unlike;
    sprintf(file, "A\tx\tw\t%s\n" TOP "R\t1\tr\tpermit\t%s\n", value, value);
    decides(file, like, letter ? 0 : 10, letter ? JOGIMADUVE_PERMIT : 1, __LINE__);
    sprintf(file, "A\tx\tw\t%s\n" TOP "R\t1\tr\tpermit\t%s\n", value, like);
    decides(file, value, 8, 3, __LINE__);
    strikes(value, value, 0, __LINE__);
    steps(value, __LINE__);
    strikes(value, like, letter ? 0 : 15, __LINE__);
    if (letter) strikes(value, unlike, 15, __LINE__);
    proposes("A\tx\tw\n" TOP "R\t1\t%s\tpermit\t*\n", value, value, 0, 0, __LINE__);
    proposes("A\tx\tw\n" TOP "R\t1\t%s\tpermit\t*\n", value, like, letter ? 16 : 3, 3, __LINE__);
    proposes("A\tx\tw\n" TOP "O\t%s\tpermit\n", value, value, 0, 0, __LINE__);
    proposes("A\tx\tw\n" TOP "O\t%s\tpermit\n", value, like, letter ? 16 : 3, 3, __LINE__);
}

/* The first and the last letters and the bytes beside them, at the first, a middle and the last place. */
static void bytes_in_names(void) {
    static const struct { size_t length, place; } spots[] = {{1, 0}, {3, 0}, {3, 1}, {3, 2}, {16, 0}, {16, 8}, {16, 15}};
    for (size_t i = 0; i < sizeof spots / sizeof *spots; i++) {
        for (const char *byte = "@AZ[`az{"; *byte != 0; byte++) {
            char name[17], like[17], unlike[17];
            memset(name, 'n', spots[i].length);
            name[spots[i].length] = 0;
            strcpy(like, name);
            strcpy(unlike, name);
            name[spots[i].place] = *byte;
            like[spots[i].place] = (char)(*byte ^ 32);
            unlike[spots[i].place] = 'm';
            pair(name, like, unlike, strchr("AZaz", *byte) != NULL);
        }
    }
}

/* An attribute line of 40 values, `wide` ones of 16 bytes; the later one of two is the earlier in other case. */
static void many_values(int wide, int earlier, int later, uint32_t number, int line) {
    char file[1000];
    size_t size = (size_t)sprintf(file, "A\tx");
    for (int i = 0; i < 40; i++) {
        const char *start = i == later ? "\tVALUE-of-16-" : "\tvalue-of-16-";
        if (!wide) start = i == later ? "\tV" : "\tv";
        size += (size_t)sprintf(file + size, "%s%04d", start, i == later ? earlier : i);
    }
    sprintf(file + size, "\n" TOP);
    decides(file, "w", number, 1, line);
}

static void long_lines(void) {
    for (int wide = 0; wide < 2; wide++) {
        many_values(wide, 20, 20, 5, __LINE__); /* a capital, but no value twice */
        many_values(wide, 0, 1, 4, __LINE__);
        many_values(wide, 0, 39, 4, __LINE__);
        many_values(wide, 15, 16, 4, __LINE__);
        many_values(wide, 16, 17, 4, __LINE__);
        many_values(wide, 38, 39, 4, __LINE__);
    }
}

/* The name of an earlier element in other case: as element 64, and as one too many. */
static void many_elements(void) {
    char file[2000];
    size_t size = (size_t)sprintf(file, "A\tx\tw\n" TOP);
    for (int i = 1; i < 63; i++) size += (size_t)sprintf(file + size, "R\t1\tRule%d\tpermit\t*\n", i);
    sprintf(file + size, "R\t1\trule62\tpermit\t*\n");
    decides(file, "W", 4, 65, __LINE__);
    sprintf(file + size, "R\t1\tTOP\tpermit\t*\n");
    decides(file, "W", 4, 65, __LINE__);
    size += (size_t)sprintf(file + size, "R\t1\tRule63\tpermit\t*\n");
    decides(file, "W", 0, JOGIMADUVE_PERMIT, __LINE__);
    sprintf(file + size, "R\t1\tTOP\tpermit\t*\n");
    decides(file, "W", 4, 66, __LINE__);
    sprintf(file + size, "R\t1\tRule64\tpermit\t*\n");
    decides(file, "W", 5, 66, __LINE__);
}

int main(void) {
    requests();
    equal_names();
    targets();
    letters_and_words();
    bytes_in_names();
    long_lines();
    many_elements();
    return checks_done();
}
