/* Attributes `M`, of which a request holds a set of values: request lines, files at the edges, texts, and every set. */
#include "text.h"

#define TOP "P\t0\ttop\tfirst-applicable\t*\n"
#define TOP2 "P\t0\ttop\tfirst-applicable\t*\t*\n"
#define SIX "a\tb\tc\td\te\tf"
#define TWELVE SIX "\tg\th\ti\tj\tk\tl"
#define SIXTEEN TWELVE "\tm\tn\to\tp"
#define BADGE                                                                                  \
    "M\tRole\tTech\tguest\nA\tact\tjog\tteach\nP\t0\tcell\tfirst-applicable\t*\t*\n"           \
    "R\t1\tr1\tpermit\tTech\t*\nR\t1\tr2\tdeny\tguest\tteach\n"
#define MIXED "M\tx\ta\tb\tc\nA\ty\td\te\nM\tz\tf\tg\nP\t0\ttop\tfirst-applicable\t*\t*\t*\nR\t1\tr\tpermit\tc\t*\tg\n"
/* without r1, a alone is still permitted by r3, but a and b are denied by r2 */
#define RULES "P\t0\ttop\tfirst-applicable\t*\nR\t1\tr1\tpermit\ta\nR\t1\tr2\tdeny\tb\nR\t1\tr3\tpermit\ta,c\n"

#define REFUSES(file, number, second) DECIDES(file, "a", number, second)

static void decisions(void) {
    GIVES(BADGE, "Tech\tteach", JOGIMADUVE_PERMIT);
    GIVES(BADGE, "guest\tteach", JOGIMADUVE_DENY);
    GIVES(BADGE, "Tech,guest\tteach", JOGIMADUVE_PERMIT);
    GIVES(BADGE, "tECH,GUEST\tTeach", JOGIMADUVE_PERMIT);
    GIVES(BADGE, "Guest\tjog", JOGIMADUVE_NOT_APPLICABLE);
    GIVES("M\tx\ta\tb\n" "P\t0\ttop\tdeny-overrides\t*\nR\t1\tr1\tpermit\ta\nR\t1\tr2\tdeny\tb\n", "a,b", JOGIMADUVE_DENY);
    GIVES("M\tx\ta\tb\n" "P\t0\ttop\tpermit-overrides\t*\nR\t1\tr1\tdeny\ta\nR\t1\tr2\tpermit\tb\n", "a,b", JOGIMADUVE_PERMIT);
    GIVES("M\tx\ta\tb\nS\t0\ttop\tonly-one-applicable\t*\nP\t1\tp\tdeny-overrides\ta\nP\t1\tq\tdeny-overrides\tb\n", "a,b", JOGIMADUVE_INDETERMINATE);
    GIVES("M\tx\ta\tb\nS\t0\ttop\tonly-one-applicable\t*\nP\t1\tp\tdeny-overrides\ta\nP\t1\tq\tdeny-overrides\tb\n", "b", JOGIMADUVE_NOT_APPLICABLE);
    /* a policy and its rule may match by different values */
    GIVES("M\tx\ta\tb\nP\t0\ttop\tdeny-overrides\ta\nR\t1\tr\tpermit\tb\n", "a,b", JOGIMADUVE_PERMIT);
    GIVES("M\tx\ta\tb\nP\t0\ttop\tdeny-overrides\ta\nR\t1\tr\tpermit\tb\n", "b", JOGIMADUVE_NOT_APPLICABLE);
}

static void request_lines(void) {
    GIVES(MIXED, "c\td\tg", JOGIMADUVE_PERMIT);
    GIVES(MIXED, "a,b,c\te\tf,g", JOGIMADUVE_PERMIT);
    GIVES(MIXED, "B,C\tE\tG", JOGIMADUVE_PERMIT);
    GIVES(MIXED, "a,b,c\td\tf", JOGIMADUVE_NOT_APPLICABLE);
    GIVES(MIXED, "a,b\td\tf,g", JOGIMADUVE_NOT_APPLICABLE);
    /* no list, wrong order, twice, an empty piece, no value */
    DECIDES(MIXED, "*\td\tf", 10, 1);
    DECIDES(MIXED, "a,*\td\tf", 10, 1);
    DECIDES(MIXED, "b,a\td\tf", 10, 1);
    DECIDES(MIXED, "a,c,b\td\tf", 10, 1);
    DECIDES(MIXED, "a,a\td\tf", 10, 1);
    DECIDES(MIXED, "a,b,B\td\tf", 10, 1);
    DECIDES(MIXED, "a,b,c,c\td\tf", 10, 1);
    DECIDES(MIXED, "\td\tf", 10, 1);
    DECIDES(MIXED, ",\td\tf", 10, 1);
    DECIDES(MIXED, ",a\td\tf", 10, 1);
    DECIDES(MIXED, "a,\td\tf", 10, 1);
    DECIDES(MIXED, "a,,b\td\tf", 10, 1);
    DECIDES(MIXED, "a,d\td\tf", 10, 1);
    DECIDES(MIXED, "ab\td\tf", 10, 1);
    DECIDES(MIXED, "a b\td\tf", 10, 1);
    DECIDES(MIXED, "a,b\x00\td\tf", 10, 1);
    DECIDES(MIXED, "a,b\td\tf,g\n", 10, 3);
    DECIDES(MIXED, "a,b\td\tg,f", 10, 3);
    DECIDES(MIXED, "a,b\td\t", 10, 3);
    DECIDES(MIXED, "a,b\td\t*", 10, 3);
    /* an `A` has one value */
    DECIDES(MIXED, "a\td,e\tf", 10, 2);
    DECIDES(MIXED, "a\td,\tf", 10, 2);
    DECIDES(MIXED, "a\t*\tf", 10, 2);
    DECIDES("A\tx\ta\tb\tc\n" TOP, "a,b", 10, 1);
    /* the first bad field; the field count before all fields */
    DECIDES(MIXED, "b,a\td,e\t*", 10, 1);
    DECIDES(MIXED, "a,b\td,e\t*", 10, 2);
    DECIDES(MIXED, "b,a\td", 10, 0);
    DECIDES(MIXED, "a\tb\tc\td\tf", 10, 0);
    DECIDES("M\tx\ta\n" TOP, "", 10, 1);
    DECIDES("M\tx\ta\n" TOP, "a,a", 10, 1);
    GIVES("M\tx\ta\n" TOP "R\t1\tr\tdeny\t*\n", "A", JOGIMADUVE_DENY);
    GIVES("M\tx\t" TWELVE "\n" TOP "R\t1\tr\tdeny\tl\n", "a,b,c,d,e,f,g,h,i,j,k,l", JOGIMADUVE_DENY);
    DECIDES("M\tx\t" TWELVE "\n" TOP, "a,b,c,d,e,f,g,h,i,j,k,l,L", 10, 1);
    DECIDES("M\tx\t" TWELVE "\n" TOP, "a,b,c,d,e,f,g,h,i,j,l,k", 10, 1);
}

static void too_many(void) {
    REFUSES("M\tx\t" TWELVE "\tm\n" TOP, 5, 1);
    REFUSES("M\tx\t" SIXTEEN "\n" TOP, 5, 1);
    REFUSES("M\tx\t" SIXTEEN "\tq\n" TOP, 5, 1);
    REFUSES("M\tx\t" TWELVE "\tl\n" TOP, 4, 1);
    REFUSES("M\tx\t" TWELVE "\tA\n" TOP, 4, 1);
    REFUSES("M\tx\t" TWELVE "\tm_\n" TOP, 3, 1);
    GIVES("A\tx\t" TWELVE "\tm\n" TOP, "m", JOGIMADUVE_NOT_APPLICABLE);
    GIVES("M\tx\t" SIX "\nM\ty\t" SIX "\n" TOP2, "a,f\tb,c", JOGIMADUVE_NOT_APPLICABLE);
    REFUSES("M\tx\t" SIX "\nM\ty\t" SIX "\tg\n" TOP2, 5, 2);
    GIVES("A\tw\ta\nM\tx\t" TWELVE "\nM\ty\ta\nP\t0\ttop\tdeny-overrides\t*\t*\t*\n", "a\tk,l\ta", JOGIMADUVE_NOT_APPLICABLE);
    REFUSES("M\tx\t" TWELVE "\nA\ty\ta\tb\n" TOP2, 5, 2);
    REFUSES("A\ty\ta\tb\nM\tx\t" TWELVE "\n" TOP2, 5, 2);
    GIVES("M\tx\t" SIX "\tg\th\ti\tj\tk\nA\ty\ta\tb\n" TOP2, "a,k\tb", JOGIMADUVE_NOT_APPLICABLE);
    GIVES("A\tx\t" SIXTEEN "\nA\ty\t" SIXTEEN "\nA\tz\t" SIXTEEN "\nM\tw\ta\nP\t0\ttop\tdeny-overrides\t*\t*\t*\t*\n", "a\tb\tc\ta", JOGIMADUVE_NOT_APPLICABLE);
    REFUSES("A\tx\t" SIXTEEN "\nA\ty\t" SIXTEEN "\nA\tz\t" SIXTEEN "\nM\tw\ta\tb\n", 5, 4);
    GIVES("M\tu\ta\nA\tv\ta\nM\tw\ta\nM\tx\ta\nA\ty\ta\nM\tz\ta\nP\t0\ttop\tdeny-overrides\t*\t*\t*\t*\t*\t*\n", "a\ta\ta\ta\ta\ta", JOGIMADUVE_NOT_APPLICABLE);
    REFUSES("M\tu\ta\nA\tv\ta\nM\tw\ta\nM\tx\ta\nA\ty\ta\nM\tz\ta\nM\tt\ta\n", 5, 7);
    REFUSES("M\tu\ta\nM\tv\ta\nM\tw\ta\nM\tx\ta\nM\ty\ta\nM\tz\ta\nA\tt\ta\n", 5, 7);
}

static void lines(void) {
    GIVES("M\tx\ta\tb\nM\ty\tc\n" TOP2 "R\t1\tr\tdeny\tb\t*\n", "a,b\tc", JOGIMADUVE_DENY);
    REFUSES("M\n" TOP, 2, 1);
    REFUSES("M\tx\n" TOP, 2, 1);
    REFUSES("MM\tx\ta\n" TOP, 2, 1);
    REFUSES("m\tx\ta\n" TOP, 2, 1);
    REFUSES("M\tx\ta\t\n" TOP, 2, 1);
    REFUSES("M\tx\ta\n" TOP2, 2, 2);
    REFUSES("M\tx\ta\nM\ty\ta\n" TOP, 2, 3);
    REFUSES("M\tx\ta\tb,c\n" TOP, 3, 1);
    REFUSES("A\tRole\ta\nM\trOLE\tb\n" TOP2, 4, 2);
    REFUSES("M\tx\tTech\tguest\ttecH\n" TOP, 4, 1);
    REFUSES("A\tx\ta\n" TOP "M\ty\ta\n", 6, 3);
    REFUSES("M\tx\ta\n" TOP "M\ty\n", 2, 3);
    REFUSES("M\tx\ta\n" TOP "M\tX\ta\n", 4, 3);
    REFUSES("M\tx\ta\n" TOP "M\ty\t" TWELVE "\tm\n", 5, 3);
    REFUSES("P\t0\ttop\tdeny-overrides\nM\tx\ta\n", 6, 1);
    REFUSES(TOP "M\tx\ta\n", 2, 1);
    REFUSES("M\tx\ta\tb\tc\n" TOP "R\t1\tr\tpermit\ta,b,c\n", 8, 3);
    REFUSES("M\tx\ta\n" TOP "R\t1\tr\tpermit\ta\n", 8, 3);
    REFUSES("M\tx\ta\tb\tc\n" TOP "R\t1\tr\tpermit\tb,a\n", 8, 3);
    REFUSES("M\tx\tTech\tb\tc\n" TOP "R\t1\tr\tpermit\ttech\n", 8, 3);
    REFUSES("M\tx\ta\tb\n", 9, 0);
}

#define REPORTS(file, text) gives(jogimaduve_report, TEXT(file), TEXT(text), #file, __LINE__)
#define TRIMS(file, text) gives(jogimaduve_trim, TEXT(file), TEXT(text), #file, __LINE__)
#define NEITHER(file, number, second)                                                          \
    refuses(jogimaduve_report, TEXT(file), number, second, #file, __LINE__);                   \
    refuses(jogimaduve_trim, TEXT(file), number, second, #file, __LINE__)

/* The sets of a, b and c are numbered a 0, b 1, a and b 2, c 3, a and c 4, b and c 5, all 6. */
static void texts(void) {
    REPORTS(BADGE, "G\t0\t3\tpermit\tcell,r1\nG\t2\t1\tnot-applicable\tcell\nG\t3\t1\tdeny\tcell,r2\nG\t5\t1\tpermit\tcell,r1,r2\n"
                   "C\tcell\tr1\tr2\t5\nK\tr1\t0\nK\tr2\t3\n");
    REPORTS("M\tx\ta\tb\tc\n" RULES,
            "G\t0\t2\tpermit\ttop,r1,r3\nG\t1\t1\tdeny\ttop,r2\nG\t2\t2\tpermit\ttop,r1,r2,r3\nG\t3\t1\tpermit\ttop,r3\n"
            "G\t5\t1\tdeny\ttop,r2,r3\nC\ttop\tr1\tr2\t2\nC\ttop\tr2\tr3\t2\nK\tr1\t2\nK\tr2\t1\nK\tr3\t3\n");
    /* the same with values alone: r1 does no work */
    REPORTS("A\tx\ta\tb\tc\n" RULES, "G\t0\t1\tpermit\ttop,r1,r3\nG\t1\t1\tdeny\ttop,r2\nG\t2\t1\tpermit\ttop,r3\nX\tr1\nK\tr2\t1\nK\tr3\t0\n");
    /* b, then d or c and d, then f: 6 + 2 + 1 and 6 + 4 + 1 */
    REPORTS("A\tx\ta\tb\nM\ty\tc\td\nA\tz\te\tf\nP\t0\ttop\tdeny-overrides\t*\t*\t*\nR\t1\tr\tpermit\tb\td\tf\n",
            "G\t0\t10\tnot-applicable\ttop\nG\t9\t2\tpermit\ttop,r\nK\tr\t9\n");
    REPORTS("M\tx\t" TWELVE "\n" TOP "R\t1\tr\tpermit\tl\n", "G\t0\t2047\tnot-applicable\ttop\nG\t2047\t2048\tpermit\ttop,r\nK\tr\t2047\n");
    /* f alone is 31, and 32 of 63 sets hold it */
    REPORTS("M\tx\t" SIX "\nM\ty\t" SIX "\n" TOP2 "R\t1\tr\tpermit\tf\tf\n", "G\t0\t2945\tnot-applicable\ttop\nG\t1984\t1024\tpermit\ttop,r\nK\tr\t1984\n");
    TRIMS("M\tx\ta\tb\tc\n" RULES "R\t1\tr4\tdeny\tb\nR\t1\tr5\tpermit\tc\n", "M\tx\ta\tb\tc\n" RULES);
    TRIMS(BADGE, BADGE);
    NEITHER("M\tx\t" TWELVE "\tm\n" TOP, 5, 1);
    NEITHER("A\tx\ta\n" TOP "M\ty\ta\n", 6, 3);
    NEITHER("M\tx\ta\tb\n" TOP "R\t1\tr\tpermit\ta,b\n", 8, 3);
}

/* The values of a set of a, b and so on, as a request's field. */
static size_t put_set(char *line, unsigned set) {
    size_t length = 0;
    for (int value = 0; set >> value != 0; value++) {
        if (set >> value & 1) length += (size_t)sprintf(line + length, "%s%c", length == 0 ? "" : ",", 'a' + value);
    }
    return length;
}

static uint32_t first_of(unsigned set) {
    if (set & 0x805) return JOGIMADUVE_PERMIT; /* a, c, l */
    if (set & 0x402) return JOGIMADUVE_DENY;   /* b, k */
    return set & 0x038 ? JOGIMADUVE_PERMIT : JOGIMADUVE_NOT_APPLICABLE;
}

/* Each of the 4,095 sets of twelve values, by the file and by the trimmed file. */
static void every_set(void) {
    static const char file[] = "M\tx\t" TWELVE "\n" TOP "R\t1\tr1\tpermit\ta,c,l\nR\t1\tr2\tdeny\tb,k\nR\t1\tr3\tdeny\tk\n"
        "R\t1\tr4\tpermit\td,e,f\n";
    char line[40];
    int alike = 0, trimmed_alike = 0;
    jogimaduve_answer trimmed = jogimaduve_trim(TEXT(file), buffer, ROOM);
    answers(trimmed, 0, sizeof file - 1 - strlen("R\t1\tr3\tdeny\tk\n"), "r3 is struck", __LINE__);
    for (unsigned set = 1; set < 4096; set++) {
        size_t length = put_set(line, set);
        jogimaduve_answer got = bare_decision(TEXT(file), (const uint8_t *)line, length);
        alike += got.number == 0 && got.second == first_of(set);
        got = bare_decision(buffer, trimmed.second, (const uint8_t *)line, length);
        trimmed_alike += got.number == 0 && got.second == first_of(set);
    }
    check(alike == 4095, "every set of twelve values", __LINE__);
    check(trimmed_alike == 4095, "every set of twelve values, trimmed", __LINE__);
}

/* Each of the 63 times 63 pairs of sets, under a rule of both attributes and one of each. */
static void every_pair(void) {
    static const char file[] = "M\tx\t" SIX "\nM\ty\t" SIX "\nP\t0\ttop\tdeny-overrides\t*\t*\nR\t1\tr1\tpermit\ta,f\tb,e\n"
        "R\t1\tr2\tdeny\tc\t*\nR\t1\tr3\tdeny\t*\td\n";
    char line[40];
    int alike = 0;
    for (unsigned x = 1; x < 64; x++) {
        for (unsigned y = 1; y < 64; y++) {
            size_t length = put_set(line, x);
            line[length++] = '\t';
            length += put_set(line + length, y);
            uint32_t wanted = x & 4 || y & 8 ? JOGIMADUVE_DENY : x & 33 && y & 18 ? JOGIMADUVE_PERMIT : JOGIMADUVE_NOT_APPLICABLE;
            jogimaduve_answer got = bare_decision(TEXT(file), (const uint8_t *)line, length);
            alike += got.number == 0 && got.second == wanted;
        }
    }
    check(alike == 63 * 63, "every pair of sets", __LINE__);
}

int main(void) {
    decisions();
    request_lines();
    too_many();
    lines();
    texts();
    every_set();
    every_pair();
    refuses_bad_files(jogimaduve_trim);
    return checks_done();
}
