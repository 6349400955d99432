/* C-16, worked out by hand: lines of obligations, those that come with a decision, and rules that are needed for them. */
#include "cases.h"

#include <stdio.h>
#include <string.h>

#define AB "A x a b\n"
#define TOP AB "P 0 top first-applicable *\n"
#define MAY "R 1 may permit *\n"
#define LONG "name-of-16-bytes"

static void refuses(const char *policy, uint32_t number, uint32_t second)
{
    decides(policy, policy, "a", number, second);
}

static void lines(void)
{
    obliges("a name", TOP "O log permit\n" MAY, "a", PERMIT, "log\n");
    obliges("two names", TOP "O slow permit\nO Log-2 permit\n" MAY, "a", PERMIT, "slow\nLog-2\n");
    obliges("a long name", TOP "O " LONG " permit\n" MAY, "a", PERMIT, LONG "\n");
    obliges("names of other things", "A x a b\nP 0 top first-applicable *\nO x permit\nO top permit\nR 1 a permit *\n",
            "a", PERMIT, "x\ntop\n");
    obliges("letters and words", TOP "O O permit\nO permit permit\n" MAY, "a", PERMIT, "O\npermit\n");
    decides("no rule", TOP "O log permit\nO slow deny\n", "a", 0, NOT_APPLICABLE);
    /* 2 */
    refuses(TOP "O\n" MAY, 2, 3);
    refuses(TOP "O log\n" MAY, 2, 3);
    refuses(TOP "O log permit *\n" MAY, 2, 3);
    refuses(TOP "O log permit \n" MAY, 2, 3);
    refuses(TOP "O  permit\n" MAY, 2, 3);
    refuses(TOP "o log permit\n" MAY, 2, 3);
    refuses(TOP "OO log permit\n" MAY, 2, 3);
    refuses(TOP "0 log permit\n" MAY, 2, 3);
    refuses(TOP MAY "O log permit", 2, 4);
    /* 3 */
    refuses(TOP "O lo_g permit\n" MAY, 3, 3);
    refuses(TOP "O -log permit\n" MAY, 3, 3);
    refuses(TOP "O " LONG "- permit\n" MAY, 3, 3);
    refuses(TOP "O log permit\nO @ no\n" MAY, 3, 4);
    /* 4: on one element, letter case aside, whatever the words */
    refuses(TOP "O log permit\nO log permit\n" MAY, 4, 4);
    refuses(TOP "O log permit\nO log deny\n" MAY, 4, 4);
    refuses(TOP "O log permit\nO LOG no\n" MAY, 4, 4);
    refuses(TOP "O " LONG " deny\nO name-of-16-byteS permit\n" MAY, 4, 4);
    /* 6 */
    refuses(TOP "O log permit\nA y c\n" MAY, 6, 4);
    refuses(TOP "O log permit\nM y c\n" MAY, 6, 4);
    /* 7 */
    refuses(TOP "O log Permit\n" MAY, 7, 3);
    refuses(TOP "O log permits\n" MAY, 7, 3);
    refuses(TOP "O log *\n" MAY, 7, 3);
    refuses(TOP "O log deny-overrides\n" MAY, 7, 3);
    refuses(TOP "O log permit\nO slow only-one-applicable\n" MAY, 7, 4);
}

/* 14, and what comes before it and behind it. */
static void places(void)
{
#define THREE TOP "O log permit\nO slow deny\n"
    refuses(THREE "O third permit\n" MAY, 14, 5);
    refuses(THREE "O third no\n" MAY, 14, 5);
    refuses(THREE "O th_rd no\n" MAY, 3, 5);
    refuses(THREE "O log permit\n" MAY, 4, 5);
    refuses(THREE "O SLOW no\n" MAY, 4, 5);
    refuses(THREE "O third permit *\n" MAY, 2, 5);
    refuses("O log permit\n" TOP MAY, 14, 1);
    refuses("O log no\n" TOP MAY, 14, 1);
    refuses("O -log no\n" TOP MAY, 3, 1);
    refuses("O log\n" TOP MAY, 2, 1);
    refuses(AB "O log permit\nP 0 top first-applicable *\n", 14, 2);
    refuses("M x a b\nO log deny\nP 0 top first-applicable *\n", 14, 2);
    refuses(AB "O log permit\n", 14, 2);
    refuses(TOP MAY "O log permit\n", 14, 4);
    refuses(TOP MAY "O log no\n", 14, 4);
    refuses(TOP MAY "O l.g no\n", 3, 4);
    refuses(TOP MAY "O log permit *\n", 2, 4);
    /* the rule has none of its policy's names */
    refuses(TOP "O log permit\n" MAY "O log permit\n", 14, 5);
    /* lines are counted with those of obligations */
    refuses(TOP "O log permit\nO slow deny\n" MAY "R 1 may deny *\n", 4, 6);
}

/* 63 policies with two obligations each; elements alone count to 64. */
static void many(void)
{
    static char file[FILE_BYTES];
    size_t length = (size_t)sprintf(file, AB "S 0 top deny-overrides *\n");

    for (int i = 1; i < ELEMENTS; i++)
        length += (size_t)sprintf(file + length, "P 1 p%d deny-overrides *\nO log permit\nO slow deny\n", i);
    decides("64 elements", file, "a", 0, NOT_APPLICABLE);
    sprintf(file + length, "P 1 more deny-overrides *\n");
    decides("65 elements", file, "a", 5, 1 + 1 + 63 * 3 + 1);
}

/* A set of two policies that have an obligation for each effect. */
#define TWO(algorithm, one, other) AB "S 0 top " algorithm " *\nO top-p permit\nO top-d deny\nP 1 p first-applicable *\n" \
    "O p-p permit\nO p-d deny\n" one "P 1 q first-applicable *\nO q-d deny\nO q-p permit\n" other
#define YES(name) "R 2 " name " permit *\n"
#define NO(name) "R 2 " name " deny *\n"
#define NO_B(name) "R 2 " name " deny b\n"
#define TORN "S 1 torn only-one-applicable *\nO torn-d deny\nO torn-p permit\nP 2 t deny-overrides *\nO t-d deny\n" \
    "R 3 tr deny *\nP 2 u deny-overrides *\n"

static void two_children(void)
{
    obliges("D: p, p", TWO("deny-overrides", YES("r"), YES("s")), "a", PERMIT, "top-p\np-p\nq-p\n");
    obliges("D: p, d", TWO("deny-overrides", YES("r"), NO("s")), "a", DENY, "top-d\nq-d\n");
    obliges("D: d, p", TWO("deny-overrides", NO("r"), YES("s")), "a", DENY, "top-d\np-d\n");
    obliges("D: d, d", TWO("deny-overrides", NO("r"), NO("s")), "a", DENY, "top-d\np-d\n");
    obliges("D: n, p", TWO("deny-overrides", NO_B("r"), YES("s")), "a", PERMIT, "top-p\nq-p\n");
    obliges("P: p, p", TWO("permit-overrides", YES("r"), YES("s")), "a", PERMIT, "top-p\np-p\n");
    obliges("P: p, d", TWO("permit-overrides", YES("r"), NO("s")), "a", PERMIT, "top-p\np-p\n");
    obliges("P: d, p", TWO("permit-overrides", NO("r"), YES("s")), "a", PERMIT, "top-p\nq-p\n");
    obliges("P: d, d", TWO("permit-overrides", NO("r"), NO("s")), "a", DENY, "top-d\np-d\nq-d\n");
    obliges("F: p, d", TWO("first-applicable", YES("r"), NO("s")), "a", PERMIT, "top-p\np-p\n");
    obliges("F: n, d", TWO("first-applicable", NO_B("r"), NO("s")), "a", DENY, "top-d\nq-d\n");
    decides("O: both match", TWO("only-one-applicable", NO_B("r"), NO("s")), "a", 0, INDETERMINATE);
    decides("F: n, n", TWO("first-applicable", NO_B("r"), ""), "a", 0, NOT_APPLICABLE);
    obliges("O: one matches", AB "S 0 top only-one-applicable *\nO top-p permit\nP 1 p deny-overrides b\nO p-p permit\n"
            "P 1 q deny-overrides a\nO q-p permit\nR 2 r permit *\n", "a", PERMIT, "top-p\nq-p\n");
}

/* An indeterminate child settles deny-overrides and first-applicable, and has no obligations. */
static void indeterminate(void)
{
    obliges("D: i, d", AB "S 0 top deny-overrides *\nO top-d deny\n" TORN "P 1 q deny-overrides *\nO q-d deny\n"
            NO("s"), "a", DENY, "top-d\n");
    obliges("D: d, i", AB "S 0 top deny-overrides *\nO top-d deny\nP 1 q deny-overrides *\nO q-d deny\n" NO("s") TORN,
            "a", DENY, "top-d\nq-d\n");
    obliges("D: p, i", AB "S 0 top deny-overrides *\nP 1 q deny-overrides *\nO q-d deny\nO q-p permit\n" YES("s") TORN,
            "a", DENY, "");
    obliges("P: i, d", AB "S 0 top permit-overrides *\n" TORN "P 1 q deny-overrides *\nO q-d deny\n" NO("s"), "a", DENY,
            "q-d\n");
    decides("F: i, p", AB "S 0 top first-applicable *\nO top-p permit\n" TORN "P 1 q deny-overrides *\nO q-p permit\n"
            YES("s"), "a", 0, INDETERMINATE);
}

static void chains(void)
{
    obliges("the same name twice", AB "S 0 top deny-overrides *\nO log permit\nP 1 p deny-overrides *\nO log permit\n"
            YES("r"), "a", PERMIT, "log\nlog\n");
    obliges("three levels", AB "S 0 top deny-overrides *\nO A permit\nS 1 s permit-overrides *\nO B permit\n"
            "P 2 p first-applicable *\nO C permit\nR 3 r permit *\n", "a", PERMIT, "A\nB\nC\n");
    /* p permits and is asked, but s over it denies; then the root permits */
    obliges("a permit below a deny", AB "S 0 top permit-overrides *\nO A permit\nS 1 s deny-overrides *\nO B permit\n"
            "O B2 deny\nP 2 p first-applicable *\nO C permit\nR 3 r permit *\nP 2 q first-applicable *\nR 3 r2 deny *\n"
            "P 1 o first-applicable *\nO E permit\nR 2 r3 permit *\n", "a", PERMIT, "A\nE\n");
    obliges("other targets", AB "S 0 top deny-overrides *\nO A permit\nP 1 p first-applicable b\nO B permit\n"
            "R 2 r permit *\nP 1 q first-applicable *\nO C permit\nR 2 r2 permit a\n", "a", PERMIT, "A\nC\n");
    decides("the root's target fails", AB "P 0 top deny-overrides b\nO log permit\nO slow deny\n" MAY, "a", 0,
            NOT_APPLICABLE);
    decides("10 before 11", TOP "O log permit\n" MAY, "c", 10, 1);
    obliges("a set of values", "M x a b\nS 0 top deny-overrides *\nP 1 p deny-overrides a\nO A permit\nR 2 r permit *\n"
            "P 1 q deny-overrides b\nO B permit\nR 2 r2 permit *\n", "a,b", PERMIT, "A\nB\n");
}

#define SAME AB "S 0 top first-applicable *\nP 1 p first-applicable *\nO log permit\n"
#define SAME_END "P 1 q first-applicable *\nO log permit\nR 2 s permit *\n"

static void trimming(void)
{
    /* needed for its obligation alone, and K by the obligation before any other decision */
#define BOTH AB "S 0 top deny-overrides *\nP 1 p first-applicable *\nO log permit\nR 2 r permit *\n" \
    "P 1 q first-applicable *\n" \
    "O slow permit\nR 2 s permit a\n"
    gives_text("needed for obligations", ref_trim, BOTH, BOTH);
    gives_text("needed for obligations, report", ref_report, BOTH,
               "G 0 1 permit top,p,r,q,s\nG 1 1 permit top,p,r,q\nK r 0\nK s 0\n");
    gives_text("the same without", ref_report, "A x a b\nS 0 top deny-overrides *\nP 1 p first-applicable *\n"
               "R 2 r permit *\nP 1 q first-applicable *\nR 2 s permit a\n",
               "G 0 1 permit top,p,r,q,s\nG 1 1 permit top,p,r,q\nX s\nK r 0\n");
    /* another element gives the same name */
    gives_text("the same bytes", ref_trim, SAME "R 2 r permit a\n" SAME_END, SAME SAME_END);
    gives_text("the same but for case", ref_report, "A x a b\nS 0 top first-applicable *\nP 1 p first-applicable *\n"
               "O Log permit\n"
               "R 2 r permit a\n" SAME_END, "G 0 1 permit top,p,r,q,s\nG 1 1 permit top,p,q,s\nK r 0\nK s 1\n");
    gives_text("another order", ref_report, "A x a b\nS 0 top first-applicable *\nP 1 p first-applicable *\n"
               "O log permit\nO slow permit\n"
               "R 2 r permit a\nP 1 q first-applicable *\nO slow permit\nO log permit\nR 2 s permit *\n",
               "G 0 1 permit top,p,r,q,s\nG 1 1 permit top,p,q,s\nK r 0\nK s 1\n");
    /* a child behind the one that settles the answer is not asked */
#define ASKED AB "S 0 top permit-overrides *\nP 1 p first-applicable *\nO log permit\nR 2 r permit *\n" \
    "P 1 q first-applicable *\nO slow permit\n"
    gives_text("not asked", ref_report, ASKED "R 2 s permit *\n", "G 0 2 permit top,p,r,q,s\nX s\nK r 0\n");
    gives_text("not asked behind an indeterminate", ref_report, AB "S 0 top deny-overrides *\n" TORN
               "P 1 q deny-overrides *\nO q-d deny\nR 2 s deny *\n", "G 0 2 deny top,torn,t,tr,u,q,s\nX s\nX tr\n");
    gives_text("asked before an indeterminate", ref_report, AB "S 0 top deny-overrides *\nP 1 q deny-overrides *\n"
               "O q-d deny\nR 2 s deny *\n"
               TORN, "G 0 2 deny top,q,s,torn,t,tr,u\nX tr\nK s 0\n");
    /* for the other effect */
    gives_text("another word", ref_trim, AB "S 0 top deny-overrides *\nP 1 p first-applicable *\nO log deny\n"
               "R 2 r permit *\nP 1 q first-applicable *\nO slow deny\nR 2 s permit *\n",
               AB "S 0 top deny-overrides *\nP 1 p first-applicable *\nO log deny\nR 2 r permit *\n"
               "P 1 q first-applicable *\nO slow deny\n");
    refuses_text("refused", ref_trim, TOP MAY "O log permit\n", 100, 14, 4);
}

void cases_of_obligations(void)
{
    lines();
    places();
    many();
    two_children();
    indeterminate();
    chains();
    trimming();
}
