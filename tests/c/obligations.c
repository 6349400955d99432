/* Obligations: their lines, those that come with a decision, rules that are needed for them. */
#include "text.h"

#define AB "A\tx\ta\tb\n"
#define TOP AB "P\t0\ttop\tfirst-applicable\t*\n"
#define MAY "R\t1\tmay\tpermit\t*\n"
#define LONG "name-of-16-bytes"

/* Room to spare, exactly enough, each that is too short; the bytes behind the text stay. */
static void obliges(const char *file, const char *request, uint32_t decision, const char *text, int line) {
    size_t needed = strlen(text);
    for (size_t room = 0; room <= needed + 1; room++) {
        int fits = room >= needed;
        memset(buffer, FILLED, ROOM);
        jogimaduve_decision got = jogimaduve_decide((const uint8_t *)file, strlen(file), (const uint8_t *)request, strlen(request), buffer, room > needed ? ROOM : room);
        answers((jogimaduve_answer){got.number, got.second}, fits ? 0 : 11, fits ? decision : (uint32_t)needed, file, line);
        check(got.length == (fits ? needed : 0) && memcmp(buffer, text, got.length) == 0 && untouched(got.length), file, line);
    }
}

/* A refusal leaves the buffer alone, long or short. */
static void refused(const char *file, const char *request, uint32_t number, uint32_t second, int line) {
    for (size_t room = 0; room <= ROOM; room += ROOM / 2) {
        memset(buffer, FILLED, ROOM);
        jogimaduve_decision got = jogimaduve_decide((const uint8_t *)file, strlen(file), (const uint8_t *)request, strlen(request), buffer, room);
        answers((jogimaduve_answer){got.number, got.second}, number, second, file, line);
        check(got.length == 0 && untouched(0), file, line);
    }
}

#define OBLIGES(file, request, decision, text) obliges(file, request, decision, text, __LINE__)
#define REFUSES(file, number, second) refused(file, "a", number, second, __LINE__)

static void lines(void) {
    OBLIGES(TOP "O\tlog\tpermit\n" MAY, "a", JOGIMADUVE_PERMIT, "log\n");
    OBLIGES(TOP "O\tslow\tpermit\nO\tLog-2\tpermit\n" MAY, "b", JOGIMADUVE_PERMIT, "slow\nLog-2\n");
    OBLIGES(TOP "O\t" LONG "\tpermit\nO\tl\tpermit\n" MAY, "A", JOGIMADUVE_PERMIT, LONG "\nl\n");
    /* names of other things */
    OBLIGES(AB "P\t0\ttop\tfirst-applicable\t*\nO\tx\tpermit\nO\ttop\tpermit\nR\t1\tO\tpermit\t*\n", "a", JOGIMADUVE_PERMIT, "x\ntop\n");
    OBLIGES(TOP "O\tO\tpermit\nO\tpermit\tpermit\n" MAY, "a", JOGIMADUVE_PERMIT, "O\npermit\n");
    /* 2 */
    REFUSES(TOP "O\n" MAY, 2, 3);
    REFUSES(TOP "O\tlog\n" MAY, 2, 3);
    REFUSES(TOP "O\tlog\tpermit\t*\n" MAY, 2, 3);
    REFUSES(TOP "O\tlog\tpermit\t\n" MAY, 2, 3);
    REFUSES(TOP "O\t\tpermit\n" MAY, 2, 3);
    REFUSES(TOP "o\tlog\tpermit\n" MAY, 2, 3);
    REFUSES(TOP "OO\tlog\tpermit\n" MAY, 2, 3);
    REFUSES(TOP "O\tlog\tpermit", 2, 3);
    REFUSES(TOP "O\tlog\tper\x7fmit\n", 2, 3);
    /* 3 */
    REFUSES(TOP "O\tlo_g\tpermit\n" MAY, 3, 3);
    REFUSES(TOP "O\t-log\tpermit\n" MAY, 3, 3);
    REFUSES(TOP "O\t" LONG "-\tpermit\n" MAY, 3, 3);
    REFUSES(TOP "O\tlog\tpermit\nO\t@\tno\n" MAY, 3, 4);
    /* 4 */
    REFUSES(TOP "O\tlog\tpermit\nO\tlog\tpermit\n" MAY, 4, 4);
    REFUSES(TOP "O\tlog\tpermit\nO\tlog\tdeny\n" MAY, 4, 4);
    REFUSES(TOP "O\tlog\tpermit\nO\tLOG\tno\n" MAY, 4, 4);
    REFUSES(TOP "O\t" LONG "\tdeny\nO\tname-of-16-byteS\tpermit\n" MAY, 4, 4);
    OBLIGES(TOP "O\t" LONG "\tpermit\nO\tname-of-16-bytet\tpermit\n" MAY, "a", JOGIMADUVE_PERMIT, LONG "\nname-of-16-bytet\n");
    /* 6 */
    REFUSES(TOP "O\tlog\tpermit\nA\ty\tc\n", 6, 4);
    REFUSES(TOP "O\tlog\tpermit\nM\ty\tc\n", 6, 4);
    /* 7 */
    REFUSES(TOP "O\tlog\tPermit\n" MAY, 7, 3);
    REFUSES(TOP "O\tlog\tpermits\n" MAY, 7, 3);
    REFUSES(TOP "O\tlog\tden\n" MAY, 7, 3);
    REFUSES(TOP "O\tlog\t*\n" MAY, 7, 3);
    REFUSES(TOP "O\tlog\tdeny-overrides\n" MAY, 7, 3);
    REFUSES(TOP "O\tlog\tpermit\nO\tslow\tonly-one-applicable\n" MAY, 7, 4);
}

#define THREE TOP "O\tlog\tpermit\nO\tslow\tdeny\n"

/* 14, and on the same line what comes before it and behind it. */
static void places(void) {
    REFUSES(THREE "O\tthird\tpermit\n" MAY, 14, 5);
    REFUSES(THREE "O\tthird\tno\n" MAY, 14, 5);
    REFUSES(THREE "O\tth_rd\tno\n" MAY, 3, 5);
    REFUSES(THREE "O\tlog\tpermit\n" MAY, 4, 5);
    REFUSES(THREE "O\tSLOW\tno\n" MAY, 4, 5);
    REFUSES(THREE "O\tthird\tpermit\t*\n" MAY, 2, 5);
    REFUSES("O\tlog\tpermit\n" TOP MAY, 14, 1);
    REFUSES("O\tlog\tno\n" TOP MAY, 14, 1);
    REFUSES("O\t-log\tno\n" TOP MAY, 3, 1);
    REFUSES("O\tlog\n" TOP MAY, 2, 1);
    REFUSES(AB "O\tlog\tpermit\nP\t0\ttop\tfirst-applicable\t*\n", 14, 2);
    REFUSES("M\tx\ta\tb\nO\tlog\tdeny\nP\t0\ttop\tfirst-applicable\t*\n", 14, 2);
    REFUSES(AB "O\tlog\tpermit\n", 14, 2);
    REFUSES(TOP MAY "O\tlog\tpermit\n", 14, 4);
    REFUSES(TOP MAY "O\tlog\tno\n", 14, 4);
    REFUSES(TOP MAY "O\tl.g\tno\n", 3, 4);
    REFUSES(TOP MAY "O\tlog\tpermit\t*\n", 2, 4);
    REFUSES(TOP "O\tlog\tpermit\n" MAY "O\tlog\tpermit\n", 14, 5);
    /* their lines are counted */
    REFUSES(THREE MAY "R\t1\tmay\tdeny\t*\n", 4, 6);
    REFUSES(THREE MAY "\n", 2, 6);
    refuses(jogimaduve_trim, TEXT(TOP MAY "O\tlog\tpermit\n"), 14, 4, "trim", __LINE__);
    refuses(jogimaduve_report, TEXT(TOP MAY "O\tlog\tpermit\n"), 14, 4, "report", __LINE__);
}

/* Two obligations on each of 64 elements, which is no obligation too many; an element more; and too many bytes. */
static void sizes(void) {
    static char file[20000];
    size_t size = (size_t)sprintf(file, AB "S\t0\ttop\tdeny-overrides\t*\n");
    for (int i = 1; i < 64; i++) size += (size_t)sprintf(file + size, "P\t1\tp%d\tdeny-overrides\t*\nO\tlog\tpermit\nO\tslow\tdeny\n", i);
    OBLIGES(file, "a", JOGIMADUVE_NOT_APPLICABLE, "");
    gives(jogimaduve_trim, (const uint8_t *)file, size, (const uint8_t *)file, size, "64 elements", __LINE__);
    sprintf(file + size, "P\t1\tmore\tdeny-overrides\t*\n");
    REFUSES(file, 5, 2 + 63 * 3 + 1);
    memset(file + size, 'O', sizeof file - size);
    memset(buffer, FILLED, ROOM);
    jogimaduve_decision got = jogimaduve_decide((const uint8_t *)file, 16385, TEXT("a"), buffer, ROOM);
    check(got.number == 1 && got.second == 0 && got.length == 0 && untouched(0), "16,385 bytes", __LINE__);
}

/* A set of two policies, each of the three with an obligation for each effect. */
#define TWO(algorithm, one, other)                                                                                          \
    AB "S\t0\ttop\t" algorithm "\t*\nO\ttop-p\tpermit\nO\ttop-d\tdeny\nP\t1\tp\tfirst-applicable\t*\nO\tp-p\tpermit\n"        \
       "O\tp-d\tdeny\n" one "P\t1\tq\tfirst-applicable\t*\nO\tq-d\tdeny\nO\tq-p\tpermit\n" other
#define YES(name) "R\t2\t" name "\tpermit\t*\n"
#define NO(name) "R\t2\t" name "\tdeny\t*\n"
#define NO_B(name) "R\t2\t" name "\tdeny\tb\n"
/* Indeterminate, though one of its policies denies. */
#define TORN                                                                                                                \
    "S\t1\ttorn\tonly-one-applicable\t*\nO\ttorn-d\tdeny\nO\ttorn-p\tpermit\nP\t2\tt\tdeny-overrides\t*\nO\tt-d\tdeny\n"      \
    "R\t3\ttr\tdeny\t*\nP\t2\tu\tdeny-overrides\t*\n"
#define Q "P\t1\tq\tdeny-overrides\t*\nO\tq-d\tdeny\nO\tq-p\tpermit\n"

static void children(void) {
    OBLIGES(TWO("deny-overrides", YES("r"), YES("s")), "a", JOGIMADUVE_PERMIT, "top-p\np-p\nq-p\n");
    OBLIGES(TWO("deny-overrides", YES("r"), NO("s")), "a", JOGIMADUVE_DENY, "top-d\nq-d\n");
    OBLIGES(TWO("deny-overrides", NO("r"), YES("s")), "a", JOGIMADUVE_DENY, "top-d\np-d\n");
    OBLIGES(TWO("deny-overrides", NO("r"), NO("s")), "a", JOGIMADUVE_DENY, "top-d\np-d\n");
    OBLIGES(TWO("deny-overrides", NO_B("r"), YES("s")), "a", JOGIMADUVE_PERMIT, "top-p\nq-p\n");
    OBLIGES(TWO("permit-overrides", YES("r"), YES("s")), "a", JOGIMADUVE_PERMIT, "top-p\np-p\n");
    OBLIGES(TWO("permit-overrides", YES("r"), NO("s")), "a", JOGIMADUVE_PERMIT, "top-p\np-p\n");
    OBLIGES(TWO("permit-overrides", NO("r"), YES("s")), "a", JOGIMADUVE_PERMIT, "top-p\nq-p\n");
    OBLIGES(TWO("permit-overrides", NO("r"), NO("s")), "a", JOGIMADUVE_DENY, "top-d\np-d\nq-d\n");
    OBLIGES(TWO("first-applicable", YES("r"), NO("s")), "a", JOGIMADUVE_PERMIT, "top-p\np-p\n");
    OBLIGES(TWO("first-applicable", NO_B("r"), NO("s")), "a", JOGIMADUVE_DENY, "top-d\nq-d\n");
    OBLIGES(TWO("first-applicable", NO_B("r"), ""), "a", JOGIMADUVE_NOT_APPLICABLE, "");
    OBLIGES(TWO("only-one-applicable", NO_B("r"), NO("s")), "a", JOGIMADUVE_INDETERMINATE, "");
    OBLIGES(AB "S\t0\ttop\tonly-one-applicable\t*\nO\ttop-p\tpermit\nP\t1\tp\tdeny-overrides\tb\nO\tp-p\tpermit\n"
               "P\t1\tq\tdeny-overrides\ta\nO\tq-p\tpermit\n" YES("r"),
            "a", JOGIMADUVE_PERMIT, "top-p\nq-p\n");
    /* settled by an indeterminate child: the set's own alone */
    OBLIGES(AB "S\t0\ttop\tdeny-overrides\t*\nO\ttop-d\tdeny\nO\ttop-p\tpermit\n" TORN Q NO("s"), "a", JOGIMADUVE_DENY, "top-d\n");
    OBLIGES(AB "S\t0\ttop\tdeny-overrides\t*\nO\ttop-d\tdeny\n" Q NO("s") TORN, "a", JOGIMADUVE_DENY, "top-d\nq-d\n");
    OBLIGES(AB "S\t0\ttop\tdeny-overrides\t*\n" Q YES("s") TORN, "a", JOGIMADUVE_DENY, "");
    OBLIGES(AB "S\t0\ttop\tpermit-overrides\t*\n" TORN Q NO("s"), "a", JOGIMADUVE_DENY, "q-d\n");
    OBLIGES(AB "S\t0\ttop\tpermit-overrides\t*\nO\ttop-p\tpermit\nO\ttop-d\tdeny\n" TORN, "a", JOGIMADUVE_INDETERMINATE, "");
    OBLIGES(AB "S\t0\ttop\tfirst-applicable\t*\nO\ttop-p\tpermit\n" TORN Q YES("s"), "a", JOGIMADUVE_INDETERMINATE, "");
}

static void chains(void) {
    /* the same name on parent and child comes twice */
    OBLIGES(AB "S\t0\ttop\tdeny-overrides\t*\nO\tlog\tpermit\nP\t1\tp\tdeny-overrides\t*\nO\tlog\tpermit\n" YES("r"), "a", JOGIMADUVE_PERMIT, "log\nlog\n");
    OBLIGES(AB "S\t0\ttop\tdeny-overrides\t*\nO\tA\tpermit\nS\t1\ts\tpermit-overrides\t*\nO\tB\tpermit\nP\t2\tp\tfirst-applicable\t*\n"
               "O\tC\tpermit\nR\t3\tr\tpermit\t*\n",
            "a", JOGIMADUVE_PERMIT, "A\nB\nC\n");
    /* p permits, but s over it denies; the root permits */
    OBLIGES(AB "S\t0\ttop\tpermit-overrides\t*\nO\tA\tpermit\nS\t1\ts\tdeny-overrides\t*\nO\tB\tpermit\nO\tB2\tdeny\n"
               "P\t2\tp\tfirst-applicable\t*\nO\tC\tpermit\nR\t3\tr\tpermit\t*\nP\t2\tq\tfirst-applicable\t*\nR\t3\tr2\tdeny\t*\n"
               "P\t1\to\tfirst-applicable\t*\nO\tE\tpermit\nR\t2\tr3\tpermit\t*\n",
            "a", JOGIMADUVE_PERMIT, "A\nE\n");
    OBLIGES(AB "P\t0\ttop\tdeny-overrides\tb\nO\tlog\tpermit\nO\tslow\tdeny\n" MAY, "a", JOGIMADUVE_NOT_APPLICABLE, "");
    OBLIGES(AB "S\t0\ttop\tdeny-overrides\t*\nP\t1\tp\tdeny-overrides\tb\nO\tlog\tpermit\n" YES("r") "P\t1\tq\tdeny-overrides\t*\n" YES("s"), "a",
            JOGIMADUVE_PERMIT, "");
    OBLIGES("M\tx\ta\tb\nS\t0\ttop\tdeny-overrides\t*\nP\t1\tp\tdeny-overrides\ta\nO\tA\tpermit\n" YES("r") "P\t1\tq\tdeny-overrides\tb\nO\tB\tpermit\n" YES("s"),
            "a,b", JOGIMADUVE_PERMIT, "A\nB\n");
    /* 10 comes before 11, and reading before both */
    refused(TOP "O\tlog\tpermit\n" MAY, "c", 10, 1, __LINE__);
    refused(TOP "O\tlog\tpermit\n" MAY, "a\ta", 10, 0, __LINE__);
    refused(TOP "O\tlog\tno\n" MAY, "c", 7, 3, __LINE__);
}

#define TRIMS(file, text) gives(jogimaduve_trim, TEXT(file), TEXT(text), #file, __LINE__)
#define REPORTS(file, text) gives(jogimaduve_report, TEXT(file), TEXT(text), #file, __LINE__)
#define RIVALS(first, second) AB "S\t0\ttop\tfirst-applicable\t*\nP\t1\tp\tfirst-applicable\t*\n" first "P\t1\tq\tfirst-applicable\t*\n" second "R\t2\ts\tpermit\t*\n"
#define BOTH(log, slow) AB "S\t0\ttop\tdeny-overrides\t*\nP\t1\tp\tfirst-applicable\t*\n" log YES("r") "P\t1\tq\tfirst-applicable\t*\n" slow
#define RIVALS_LINES "G\t0\t1\tpermit\ttop,p,r,q,s\nG\t1\t1\tpermit\ttop,p,q,s\n"

static void trimming(void) {
    /* s is needed for its obligation alone; r by request 0 for its obligation, by request 1 for the decision */
    TRIMS(BOTH("O\tlog\tpermit\n", "O\tslow\tpermit\n") "R\t2\ts\tpermit\ta\n", BOTH("O\tlog\tpermit\n", "O\tslow\tpermit\n") "R\t2\ts\tpermit\ta\n");
    REPORTS(BOTH("O\tlog\tpermit\n", "O\tslow\tpermit\n") "R\t2\ts\tpermit\ta\n", "G\t0\t1\tpermit\ttop,p,r,q,s\nG\t1\t1\tpermit\ttop,p,r,q\nK\tr\t0\nK\ts\t0\n");
    TRIMS(BOTH("", "") "R\t2\ts\tpermit\ta\n", BOTH("", ""));
    TRIMS(BOTH("O\tlog\tdeny\n", "O\tslow\tdeny\n") "R\t2\ts\tpermit\ta\n", BOTH("O\tlog\tdeny\n", "O\tslow\tdeny\n"));
    /* the same bytes from another element; not so in other case or another order */
    TRIMS(RIVALS("O\tlog\tpermit\nR\t2\tr\tpermit\ta\n", "O\tlog\tpermit\n"), RIVALS("O\tlog\tpermit\n", "O\tlog\tpermit\n"));
    REPORTS(RIVALS("O\tlog\tpermit\nR\t2\tr\tpermit\ta\n", "O\tlog\tpermit\n"), RIVALS_LINES "X\tr\nK\ts\t0\n");
    REPORTS(RIVALS("O\tLog\tpermit\nR\t2\tr\tpermit\ta\n", "O\tlog\tpermit\n"), RIVALS_LINES "K\tr\t0\nK\ts\t1\n");
    REPORTS(RIVALS("O\tlag\tpermit\nR\t2\tr\tpermit\ta\n", "O\tlog\tpermit\n"), RIVALS_LINES "K\tr\t0\nK\ts\t1\n");
    REPORTS(RIVALS("O\tlog\tpermit\nO\tslow\tpermit\nR\t2\tr\tpermit\ta\n", "O\tslow\tpermit\nO\tlog\tpermit\n"), RIVALS_LINES "K\tr\t0\nK\ts\t1\n");
    /* the same bytes, but cut into other names */
    REPORTS(RIVALS("O\tab\tpermit\nO\tc\tpermit\nR\t2\tr\tpermit\ta\n", "O\ta\tpermit\nO\tbc\tpermit\n"), RIVALS_LINES "K\tr\t0\nK\ts\t1\n");
    /* not asked: behind a permit, behind an indeterminate; asked before one */
    REPORTS(AB "S\t0\ttop\tpermit-overrides\t*\nP\t1\tp\tfirst-applicable\t*\nO\tlog\tpermit\n" YES("r") "P\t1\tq\tfirst-applicable\t*\nO\tslow\tpermit\n" YES("s"),
            "G\t0\t2\tpermit\ttop,p,r,q,s\nX\ts\nK\tr\t0\n");
    REPORTS(AB "S\t0\ttop\tdeny-overrides\t*\n" TORN Q NO("s"), "G\t0\t2\tdeny\ttop,torn,t,tr,u,q,s\nX\ts\nX\ttr\n");
    REPORTS(AB "S\t0\ttop\tdeny-overrides\t*\n" Q NO("s") TORN, "G\t0\t2\tdeny\ttop,q,s,torn,t,tr,u\nX\ttr\nK\ts\t0\n");
    /* the lines of obligations stay */
    TRIMS(TOP "O\tlog\tpermit\nO\tslow\tdeny\n" MAY "R\t1\tr\tdeny\ta\n", TOP "O\tlog\tpermit\nO\tslow\tdeny\n" MAY);
}

/* A refusal has a third number, too. */
static jogimaduve_answer decide(const uint8_t *file, size_t size, uint8_t *out, size_t room) {
    jogimaduve_decision got = jogimaduve_decide(file, size, TEXT("a"), out, room);
    check(got.length == 0, "the length of a refusal", __LINE__);
    return (jogimaduve_answer){got.number, got.second};
}

int main(void) {
    lines();
    places();
    sizes();
    children();
    chains();
    trimming();
    refuses_bad_files(decide);
    return checks_done();
}
