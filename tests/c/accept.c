/* jogimaduve_accept, line by line: what may be left out of the original and what not, and that lines are compared to the byte.
 * Then the refusals of reading, whose order is the original's, the proposal's, the lines'; and files that overlap. */
#include "judge.h"
#include "small.h"

#define SET "S\t0\ttop\tpermit-overrides\t*\n"
#define LOG "O\tlog\tpermit\n"
#define P "P\t1\tp\tfirst-applicable\t*\n"
#define STOP "O\tstop\tdeny\n"
#define R1 "R\t2\tr1\tpermit\ta\n"
#define R2 "R\t2\tr2\tdeny\tb\n"
#define Q "P\t1\tq\tfirst-applicable\tb\n"
#define SLOW "O\tslow\tdeny\n"
#define R3 "R\t2\tr3\tdeny\t*\n"
#define UP AB SET LOG P STOP
/* a gets permit with log, b deny with stop and slow: ten lines, and every rule does work */
#define FULL UP R1 R2 Q SLOW R3

/* Each line of the original left out, or all behind it, and some together. */
static void left_out(void) {
    ACCEPTS(FULL, FULL);
    JUDGES(FULL, SET LOG P STOP R1 R2 Q SLOW R3, 2, 1);
    JUDGES(FULL, AB LOG P STOP R1 R2 Q SLOW R3, 14, 2);
    JUDGES(FULL, AB SET P STOP R1 R2 Q SLOW R3, 16, 3);
    JUDGES(FULL, AB SET LOG STOP R1 R2 Q SLOW R3, 6, 5);
    JUDGES(FULL, AB SET LOG P R1 R2 Q SLOW R3, 16, 5);
    JUDGES(FULL, UP R2 Q SLOW R3, 17, 0);
    JUDGES(FULL, UP R1 Q SLOW R3, 17, 1);
    JUDGES(FULL, UP R1 R2 SLOW R3, 14, 8);
    JUDGES(FULL, UP R1 R2 Q R3, 16, 9);
    JUDGES(FULL, UP R1 R2 Q SLOW, 17, 1);
    JUDGES(FULL, UP R1 R2 Q, 16, 0);
    JUDGES(FULL, UP R1 R2, 16, 0);
    JUDGES(FULL, UP R1, 16, 0);
    JUDGES(FULL, UP, 16, 0);
    JUDGES(FULL, AB SET LOG P, 16, 0);
    JUDGES(FULL, AB SET LOG, 16, 0);
    JUDGES(FULL, AB SET, 16, 0);
    JUDGES(FULL, AB, 9, 0);
    JUDGES(FULL, "", 9, 0);
    /* the line told is the proposal's: in the original it stands further down */
    JUDGES(FULL, AB SET P Q R3, 16, 3);
    JUDGES(FULL, AB SET LOG P R2 Q SLOW R3, 16, 5);
    JUDGES(FULL, UP Q R3, 16, 7);
    JUDGES(FULL, UP R2 Q R3, 16, 8);
    JUDGES(FULL, UP R2 R3, 16, 7);
    JUDGES(FULL, UP R3, 16, 6);
    /* rule lines alone are left over */
    ACCEPTS(TOP ONE TWIN, TOP ONE);
    ACCEPTS(TOP ONE TWIN "R\t1\tmore\tpermit\ta\n", TOP ONE);
    JUDGES(TOP ONE TWIN, TOP, 17, 0);
    ACCEPTS(TOP, TOP);
    ACCEPTS(TOP ONE, TOP ONE);
    /* others behind them */
    JUDGES(AB SET P R1 R2 Q, AB SET P R1 R2, 16, 0);
    JUDGES(AB SET P R1 R2 Q, AB SET P R1, 16, 0);
    JUDGES(AB SET P R1 R2 Q R3, AB SET P, 16, 0);
    JUDGES(AB SET P Q, AB SET P, 16, 0);
    JUDGES(AB SET P Q, AB SET Q, 16, 3);
    JUDGES(AB SET P "S\t1\tset\tdeny-overrides\t*\n", AB SET P, 16, 0);
    JUDGES(AB SET P R1 Q SLOW, AB SET P R1 Q, 16, 0);
    JUDGES(TOP LOG, TOP, 16, 0);
    JUDGES(TOP LOG ONE, TOP, 16, 0);
    JUDGES(TOP LOG ONE, TOP ONE, 16, 3);
    JUDGES(TOP LOG STOP ONE, TOP LOG ONE, 16, 4);
    JUDGES(TOP LOG STOP ONE, TOP STOP ONE, 16, 3);
    JUDGES(TOP LOG STOP, TOP LOG, 16, 0);
}

/* Rules, policies, sets and obligations in another order, or in another place. */
static void moved(void) {
    JUDGES(FULL, UP R2 R1 Q SLOW R3, 16, 7);
    JUDGES(FULL, UP R3 R1 R2 Q SLOW, 16, 6);
    JUDGES(FULL, UP R1 R2 R3 Q SLOW, 16, 8);
    JUDGES(FULL, UP R1 Q SLOW R2 R3, 16, 9);
    JUDGES(FULL, UP R1 Q SLOW R3 R2, 16, 10);
    JUDGES(FULL, AB SET LOG Q SLOW R3 P STOP R1 R2, 16, 4);
    JUDGES(FULL, AB SET STOP P LOG R1 R2 Q SLOW R3, 16, 3);
    JUDGES(TOP LOG STOP ONE, TOP STOP LOG ONE, 16, 3);
    JUDGES(TOP ONE TWIN, TOP TWIN ONE, 16, 4);
    JUDGES(ABC N1 N2 N3, ABC N1 N3 N2, 16, 5);
    JUDGES(ABC N1 N2 N3, ABC N3 N1 N2, 16, 4);
    JUDGES(ABC N1 N2 N3, ABC N2 N1 N3, 16, 4);
    /* the same obligation elsewhere */
    JUDGES(AB SET LOG P LOG R1, AB SET P LOG R1, 16, 3);
    JUDGES(AB SET LOG P LOG R1, AB SET LOG P R1, 16, 5);
    JUDGES(AB SET P LOG R1, AB SET LOG P R1, 16, 3);
}

static void added(void) {
    JUDGES(FULL, FULL "R\t2\tr4\tdeny\ta\n", 16, 11);
    JUDGES(FULL, FULL "R\t2\tr4\tdeny\ta\nR\t2\tr5\tdeny\ta\n", 16, 11);
    JUDGES(FULL, FULL "P\t1\tr4\tdeny-overrides\ta\n", 16, 11);
    JUDGES(FULL, UP R2 Q SLOW R3 "S\t1\tr4\tdeny-overrides\ta\n", 16, 10);
    JUDGES(FULL, UP "R\t2\tr4\tdeny\ta\n" R1 R2 Q SLOW R3, 16, 6);
    JUDGES(FULL, UP R1 "R\t2\tr4\tpermit\ta\n" R2 Q SLOW R3, 16, 7);
    JUDGES(FULL, UP R1 R2 "P\t1\tr4\tdeny-overrides\ta\n" Q SLOW R3, 16, 8);
    JUDGES(FULL, UP R2 "P\t1\tr4\tdeny-overrides\ta\n" Q SLOW R3, 16, 7);
    JUDGES(FULL, UP R1 R2 Q SLOW LOG R3, 16, 10);
    JUDGES(FULL, AB SET LOG SLOW P STOP R1 R2 Q SLOW R3, 16, 4);
    JUDGES(TOP, TOP ONE, 16, 3);
    JUDGES(TOP, TOP LOG, 16, 3);
    JUDGES(TOP LOG, TOP LOG STOP, 16, 4);
    JUDGES(TOP ONE, TOP ONE TWIN, 16, 4);
    JUDGES(TOP TWIN, TOP ONE TWIN, 16, 3);
    JUDGES(TOP ONE, TOP TWIN, 16, 3);
    /* an attribute more, which changes every element's line */
    JUDGES(TOP, AB "A\ty\tc\nP\t0\ttop\tfirst-applicable\t*\t*\n", 16, 2);
    JUDGES(AB "A\ty\tc\nP\t0\ttop\tfirst-applicable\t*\t*\n", TOP, 16, 2);
    JUDGES("A\ty\tc\n" AB "P\t0\ttop\tfirst-applicable\t*\t*\n", TOP, 16, 1);
}

/* One line that is other in one field, also where every request would get the same. */
static void other_lines(void) {
    JUDGES(TOP ONE, "M\tx\ta\tb\nP\t0\ttop\tfirst-applicable\t*\n" ONE, 16, 1);
    JUDGES(TOP ONE, "A\ty\ta\tb\nP\t0\ttop\tfirst-applicable\t*\n" ONE, 16, 1);
    JUDGES(TOP ONE, "A\tX\ta\tb\nP\t0\ttop\tfirst-applicable\t*\n" ONE, 16, 1);
    JUDGES(TOP ONE, "A\tx\ta\tB\nP\t0\ttop\tfirst-applicable\t*\n" ONE, 16, 1);
    JUDGES(TOP ONE, "A\tx\tb\ta\nP\t0\ttop\tfirst-applicable\t*\n" ONE, 16, 1);
    JUDGES(TOP ONE, "A\tx\ta\tb\tc\nP\t0\ttop\tfirst-applicable\t*\n" ONE, 16, 1);
    JUDGES(ABC N1, "A\tx\ta\tb\nP\t0\ttop\tfirst-applicable\t*\n" N1, 16, 1);
    JUDGES("M\tx\ta\nP\t0\ttop\tfirst-applicable\t*\n", "A\tx\ta\nP\t0\ttop\tfirst-applicable\t*\n", 16, 1);
    JUDGES(TOP ONE, AB "S\t0\ttop\tfirst-applicable\t*\n", 16, 2);
    JUDGES(TOP ONE, AB "P\t0\tTop\tfirst-applicable\t*\n" ONE, 16, 2);
    JUDGES(TOP ONE, AB "P\t0\ttops\tfirst-applicable\t*\n" ONE, 16, 2);
    JUDGES(TOP ONE, AB "P\t0\ttop\tdeny-overrides\t*\n" ONE, 16, 2);
    JUDGES(TOP ONE, AB "P\t0\ttop\tfirst-applicable\ta\n" ONE, 16, 2);
    JUDGES(TOP LOG ONE, TOP "O\tLog\tpermit\n" ONE, 16, 3);
    JUDGES(TOP LOG ONE, TOP "O\tlog\tdeny\n" ONE, 16, 3);
    JUDGES(TOP LOG ONE, TOP "O\tlogs\tpermit\n" ONE, 16, 3);
    JUDGES(TOP LOG ONE, TOP "O\tlo\tpermit\n" ONE, 16, 3);
    JUDGES(TOP ONE, TOP "R\t1\tone\tpermit\ta\n", 16, 3);
    JUDGES(TOP ONE, TOP "R\t1\tONE\tpermit\ta\n", 16, 3);
    JUDGES(TOP ONE, TOP "R\t1\tOn\tpermit\ta\n", 16, 3);
    JUDGES(TOP ONE, TOP "R\t1\tOnes\tpermit\ta\n", 16, 3);
    JUDGES(TOP ONE, TOP "R\t1\tOne\tdeny\ta\n", 16, 3);
    JUDGES(TOP ONE, TOP "R\t1\tOne\tpermit\tb\n", 16, 3);
    JUDGES(TOP ONE, TOP "R\t1\tOne\tpermit\t*\n", 16, 3);
    JUDGES(TOP TWIN ONE, TOP "R\t1\tOne\tpermit\tb\n", 16, 3);
    JUDGES(AB "S\t0\ttop\tdeny-overrides\t*\nP\t1\tp\tdeny-overrides\t*\nR\t2\tr\tpermit\t*\nS\t1\ts\tdeny-overrides\t*\nP\t2\tq\tdeny-overrides\t*\n",
           AB "S\t0\ttop\tdeny-overrides\t*\nP\t1\tp\tdeny-overrides\t*\nR\t2\tr\tpermit\t*\nS\t1\ts\tdeny-overrides\t*\nP\t1\tq\tdeny-overrides\t*\n", 16, 6);
    JUDGES(AB "S\t0\ttop\tdeny-overrides\t*\nS\t1\ts\tdeny-overrides\t*\nP\t2\tp\tdeny-overrides\t*\nR\t3\tr\tpermit\t*\n",
           AB "S\t0\ttop\tdeny-overrides\t*\nP\t1\tp\tdeny-overrides\t*\nR\t2\tr\tpermit\t*\n", 16, 3);
    /* the line goes on, in the one or in the other; it decides alike all the same */
    JUDGES(ABC N1 N2 N3, ABC N1 "R\t1\tr2\tdeny\tb\n" N3, 16, 4);
    JUDGES(ABC N1 "R\t1\tr2\tdeny\tb\n" N3, ABC N1 N2 N3, 16, 4);
    JUDGES(ABC N1 "R\t1\tr2\tdeny\tb\n", ABC N1 "R\t1\tr2\tdeny\tb,c\n", 16, 4);
    JUDGES(ABC N1 "R\t1\tr2\tdeny\tb,c\n", ABC N1 "R\t1\tr2\tdeny\tb\n", 16, 4);
    JUDGES(ABC N1 "R\t1\tr2\tdeny\tb\n", ABC N1 "R\t1\tr2\tdeny\tc\n", 16, 4);
    /* only the first is told, and before what requests get and what does no work */
    JUDGES(FULL, UP "R\t2\tr1\tdeny\ta\n" "R\t2\tR2\tdeny\tb\n" Q SLOW R3, 16, 6);
    JUDGES(FULL, UP "R\t2\tR2\tdeny\tb\n" Q SLOW, 16, 6);
    JUDGES(TOP ONE TWIN, TOP ONE TWIN "R\t1\tmore\tdeny\t*\n", 16, 5);
    JUDGES(TOP LOG ONE TWIN, TOP ONE TWIN, 16, 3);
}

/* Files that reading refuses. */
static uint8_t too_long[JOGIMADUVE_LONGEST_FILE + 1];
static const struct { const uint8_t *file; size_t size; uint32_t number, second; } bad[] = {
    {too_long, sizeof too_long, 1, 0},
    {too_long, sizeof too_long - 1, 2, 5},
    {TEXT("\n"), 2, 1},
    {TEXT(TOP ONE "R\t1\ttwin\tpermit\ta"), 2, 4},
    {TEXT(TOP ONE "\n" TWIN), 2, 4},
    {TEXT(TOP "R\t1\tr_\tpermit\ta\n"), 3, 3},
    {TEXT(TOP ONE "R\t1\tone\tpermit\ta\n"), 4, 4},
    {TEXT("A\tx\t0\t1\t2\t3\t4\t5\t6\t7\t8\t9\ta\tb\tc\td\te\tf\tg\n"), 5, 1},
    {TEXT(TOP ONE TWIN "R\t2\tr\tpermit\ta\n"), 6, 5},
    {TEXT(TOP ONE "R\t1\tr\tPermit\ta\n"), 7, 4},
    {TEXT(TOP ONE TWIN "R\t1\tr\tpermit\ta,b\n"), 8, 5},
    {TEXT(AB), 9, 0},
    {TEXT(""), 9, 0},
    {TEXT(TOP LOG ONE LOG), 14, 5},
    {TEXT(TOP LOG STOP SLOW), 14, 5},
};
static const struct { const uint8_t *file; size_t size; } good[] = {
    {TEXT(TOP)}, {TEXT(TOP ONE)}, {TEXT(TOP ONE TWIN)}, {TEXT(TOP LOG ONE)}, {TEXT(TOP TWIN)}, {TEXT(FULL)},
};

static void refusals(void) {
    size_t bads = sizeof bad / sizeof *bad, goods = sizeof good / sizeof *good;
    memset(too_long, '\n', sizeof too_long);
    memcpy(too_long, TOP ONE TWIN, sizeof TOP ONE TWIN - 1);
    for (size_t i = 0; i < bads; i++) {
        for (size_t j = 0; j < bads; j++) {
            judges(bad[i].file, bad[i].size, bad[j].file, bad[j].size, bad[i].number, bad[i].second, "both refused", __LINE__);
        }
        for (size_t j = 0; j < goods; j++) {
            judges(bad[i].file, bad[i].size, good[j].file, good[j].size, bad[i].number, bad[i].second, "the original refused", __LINE__);
            judges(good[j].file, good[j].size, bad[i].file, bad[i].size, bad[i].number, bad[i].second, "the proposal refused", __LINE__);
        }
        /* one file in both places */
        answers(jogimaduve_accept(bad[i].file, bad[i].size, bad[i].file, bad[i].size), bad[i].number, bad[i].second, "refused", __LINE__);
    }
}

/* What a file of so many lines is beside one of so many, both from the top of HEAD and its four rules. */
static jogimaduve_answer expected(int original, int proposal) {
    static const jogimaduve_answer answer[5] = {{17, 0}, {17, 3}, {0, 0}, {18, 5}, {18, 5}};
    if (proposal > original) return (jogimaduve_answer){16, (uint32_t)original + 1};
    if (proposal == original && proposal < 6) return (jogimaduve_answer){0, 0};
    return answer[proposal - 3];
}

/* How reading ends at this length: 0 and the number of lines, or the refusal. */
static jogimaduve_answer ends_at(const char *file, size_t length) {
    uint32_t lines = 0;
    for (size_t at = 0; at < length; at++) lines += file[at] == '\n';
    if (length > 0 && file[length - 1] != '\n') return (jogimaduve_answer){2, lines + 1};
    return lines < 3 ? (jogimaduve_answer){9, 0} : (jogimaduve_answer){0, lines};
}

/* Both from one place on, each with every length: they overlap, or are the same bytes. */
static void lengths(void) {
    static const char file[] = HEAD H1 H2 H3 H4;
    for (size_t size = 0; size < sizeof file; size++) {
        jogimaduve_answer original = ends_at(file, size);
        for (size_t length = 0; length < sizeof file; length++) {
            jogimaduve_answer proposal = ends_at(file, length), wanted = original.number != 0 ? original : proposal;
            if (wanted.number == 0) wanted = expected((int)original.second, (int)proposal.second);
            jogimaduve_answer got = jogimaduve_accept((const uint8_t *)file, size, (const uint8_t *)file, length);
            answers(got, wanted.number, wanted.second, "overlapping files", __LINE__);
        }
    }
    /* one within the other: the original's second line on, or the proposal's */
    size_t first = strlen("A\trole\ttech\tguest\n"), size = sizeof file - 1;
    answers(jogimaduve_accept((const uint8_t *)file, size, (const uint8_t *)file + first, size - first), 2, 2, "within", __LINE__);
    answers(jogimaduve_accept((const uint8_t *)file + first, size - first, (const uint8_t *)file, size), 2, 2, "within", __LINE__);
}

/* Other files of the same lengths in the same places: nothing is kept of those before. */
static void now(const char *original, const char *proposal, uint32_t number, uint32_t second, int line) {
    static uint8_t places[2][sizeof TOP ONE - 1];
    check(strlen(original) == sizeof places[0] && strlen(proposal) == sizeof places[1], proposal, line);
    memcpy(places[0], original, sizeof places[0]);
    memcpy(places[1], proposal, sizeof places[1]);
    answers(jogimaduve_accept(places[0], sizeof places[0], places[1], sizeof places[1]), number, second, proposal, line);
}

static void fresh(void) {
    now(TOP ONE, TOP ONE, 0, 0, __LINE__);
    now(TOP "R\t1\tTwo\tpermit\ta\n", TOP ONE, 16, 3, __LINE__);
    now(TOP "R\t1\tTwo\tpermit\ta\n", TOP "R\t1\tTwo\tpermit\ta\n", 0, 0, __LINE__);
    now(TOP ONE, TOP "R\t1\tO_e\tpermit\ta\n", 3, 3, __LINE__);
    now(TOP "R\t2\tOne\tpermit\ta\n", TOP "R\t1\tO_e\tpermit\ta\n", 6, 3, __LINE__);
    now(TOP ONE, TOP ONE, 0, 0, __LINE__);
    now("A\tx\ta\ta\nP\t0\ttop\tfirst-applicable\t*\n" ONE, TOP ONE, 4, 1, __LINE__);
    now(TOP ONE, TOP ONE, 0, 0, __LINE__);
}

int main(void) {
    left_out();
    moved();
    added();
    other_lines();
    refusals();
    lengths();
    fresh();
    return checks_done();
}
