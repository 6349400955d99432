/* C-13, worked out by hand: a line M declares an attribute of which a request holds a set of values. */
#include "cases.h"

#include <stdio.h>
#include <string.h>

#define TOP "P 0 top first-applicable *\n"
#define TOP2 "P 0 top first-applicable * *\n"
#define SIX " a b c d e f\n"
#define TWELVE " a b c d e f g h i j k l"
#define BADGE "M Role Tech guest\nA act jog teach\nP 0 cell first-applicable * *\nR 1 r1 permit Tech *\n" \
    "R 1 r2 deny guest teach\n"

/* The sets of a and b are a, b and both, numbers 0, 1 and 2; with c they go on with c, a and c, b and c, all: 3 to 6. */
static void numbers(void)
{
    /* Tech and guest together are 2, and with teach 2 * 2 + 1. Only they show the conflict. */
    gives_text("two roles, report", ref_report, BADGE,
               "G 0 3 permit cell,r1\nG 2 1 not-applicable cell\nG 3 1 deny cell,r2\nG 5 1 permit cell,r1,r2\n"
               "C cell r1 r2 5\nK r1 0\nK r2 3\n");
    gives_text("two roles, trimmed", ref_trim, BADGE, BADGE);
    /* Without r1, a alone is still permitted by r3, but a and b are denied by r2. With an A, r1 is needless. */
    gives_text("needed for a set alone", ref_report,
               "M x a b c\n" TOP "R 1 r1 permit a\nR 1 r2 deny b\nR 1 r3 permit a,c\n",
               "G 0 2 permit top,r1,r3\nG 1 1 deny top,r2\nG 2 2 permit top,r1,r2,r3\nG 3 1 permit top,r3\n"
               "G 5 1 deny top,r2,r3\nC top r1 r2 2\nC top r2 r3 2\nK r1 2\nK r2 1\nK r3 3\n");
    gives_text("the same with A", ref_report, "A x a b c\n" TOP "R 1 r1 permit a\nR 1 r2 deny b\nR 1 r3 permit a,c\n",
               "G 0 1 permit top,r1,r3\nG 1 1 deny top,r2\nG 2 1 permit top,r3\nX r1\nK r2 1\nK r3 0\n");
    /* Matched: b; d or c and d; f. That is 1 * 6 + 1 * 2 + 1 and 1 * 6 + 2 * 2 + 1. */
    gives_text("in the middle", ref_report,
               "A x a b\nM y c d\nA z e f\nP 0 top first-applicable * * *\nR 1 r permit b d f\n",
               "G 0 10 not-applicable top\nG 9 2 permit top,r\nK r 9\n");
    /* l alone is 2^11 - 1; half of the 4,096 sets hold it, the empty one, which is none of them, does not. */
    gives_text("12 values", ref_report, "M x" TWELVE "\n" TOP "R 1 r permit l\n",
               "G 0 2047 not-applicable top\nG 2047 2048 permit top,r\nK r 2047\n");
    /* f alone is 31, and 32 of 63 sets hold it. */
    gives_text("63 times 63", ref_report, "M x" SIX "M y" SIX TOP2 "R 1 r permit f f\n",
               "G 0 2945 not-applicable top\nG 1984 1024 permit top,r\nK r 1984\n");
    gives_text("one value", ref_report, "M x a\n" TOP "R 1 r permit *\n", "G 0 1 permit top,r\nK r 0\n");
}

static void decisions(void)
{
    decides("one role", BADGE, "Tech teach", 0, PERMIT);
    decides("other role", BADGE, "guest teach", 0, DENY);
    decides("both roles", BADGE, "Tech,guest teach", 0, PERMIT);
    decides("both roles, jog", BADGE, "Tech,guest jog", 0, PERMIT);
    decides("letter case", BADGE, "tECH,GUEST TEACH", 0, PERMIT);
#define OPPOSED "M x a b c\nP 0 top %s *\nR 1 r1 permit a\nR 1 r2 deny b\n"
    static const struct { const char *word; uint32_t a, b, both, others; } algorithms[] = {
        {"first-applicable", PERMIT, DENY, PERMIT, NOT_APPLICABLE},
        {"permit-overrides", PERMIT, DENY, PERMIT, NOT_APPLICABLE},
        {"deny-overrides", PERMIT, DENY, DENY, NOT_APPLICABLE},
    };
    for (size_t i = 0; i < sizeof algorithms / sizeof *algorithms; i++) {
        char file[200];
        sprintf(file, OPPOSED, algorithms[i].word);
        decides(file, file, "a,c", 0, algorithms[i].a);
        decides(file, file, "b,c", 0, algorithms[i].b);
        decides(file, file, "a,b", 0, algorithms[i].both);
        decides(file, file, "a,b,c", 0, algorithms[i].both);
        decides(file, file, "c", 0, algorithms[i].others);
    }
#define ONE_OF_TWO "M x a b c\nS 0 top only-one-applicable *\nP 1 p first-applicable a\nR 2 r permit *\n" \
    "P 1 q first-applicable b\n"
    decides("one matches", ONE_OF_TWO, "a,c", 0, PERMIT);
    decides("the empty one matches", ONE_OF_TWO, "b,c", 0, NOT_APPLICABLE);
    decides("two match", ONE_OF_TWO, "a,b", 0, INDETERMINATE);
    /* a rule's value need not be the one that its policy matched by */
    decides("policy by a, rule by b", "M x a b\nP 0 top first-applicable a\nR 1 r deny b\n", "a,b", 0, DENY);
    decides("policy by a, no rule", "M x a b\nP 0 top first-applicable a\nR 1 r deny b\n", "a", 0, NOT_APPLICABLE);
}

static void request_lines(void)
{
#define THREE "M x a b c\nA y d e\nM z f g\nP 0 top first-applicable * * *\nR 1 r permit c * g\n"
    static const struct { const char *line; uint32_t place; } bad[] = {
        {"* d f", 1}, {"b,a d f", 1}, {"c,a d f", 1}, {"a,a d f", 1}, {"a,A d f", 1}, {"a,b,B d f", 1}, {"a,b,a d f", 1},
        {",a d f", 1}, {"a, d f", 1}, {"a,,b d f", 1}, {", d f", 1}, {" d f", 1}, {"a,* d f", 1}, {"a,b,c,* d f", 1},
        {"a,d d f", 1}, {"ab d f", 1}, {"a;b d f", 1}, {"a,b,c, d f", 1}, {"a d,e f", 2}, {"a d,d f", 2}, {"a d, f", 2},
        {"a,c ,d f", 2}, {"a * f", 2}, {"a  f", 2}, {"a,b d *", 3}, {"a,b d g,f", 3}, {"a,b d ", 3}, {"a,b d f,g\n", 3},
        {"b,a d,e *", 1}, {"a d,e *", 2}, {"", 0}, {"a", 0}, {"a,b,c", 0}, {"a,b d", 0}, {"a d f ", 0}, {"a b c d f", 0},
    };
    for (size_t i = 0; i < sizeof bad / sizeof *bad; i++)
        decides(bad[i].line, THREE, bad[i].line, 10, bad[i].place);
    decides("full lists", THREE, "a,b,c e f,g", 0, PERMIT);
    decides("full list, no g", THREE, "a,b,c e f", 0, NOT_APPLICABLE);
    decides("all but the first", THREE, "B,C E G", 0, PERMIT);
    decides("empty line", "M x a\n" TOP, "", 10, 1);
    decides("the only value", "M x a\n" TOP "R 1 r deny *\n", "a", 0, DENY);
    decides("the only value twice", "M x a\n" TOP, "a,a", 10, 1);
    decides("12 values", "M x" TWELVE "\n" TOP "R 1 r deny l\n", "a,b,c,d,e,f,g,h,i,j,k,l", 0, DENY);
    decides("the twelfth twice", "M x" TWELVE "\n" TOP, "a,b,c,d,e,f,g,h,i,j,k,l,L", 10, 1);
    decides("the last two exchanged", "M x" TWELVE "\n" TOP, "a,b,c,d,e,f,g,h,i,j,l,k", 10, 1);
    decides("a comma list of an A", "A x a b c\n" TOP, "a,b", 10, 1);
}

/* The longest request that can be good: 17 values of 16 bytes, twelve of them in one set. No six attributes have more. */
static void longest_request(void)
{
    char file[1000] = "M x", request[400] = "";
    for (int i = 0; i < 17; i++) {
        sprintf(file + strlen(file), i < 12 ? " value-of-16-by%c" : "\nM y%c value-of-16-by%c", 'a' + i, 'a' + i);
        sprintf(request + strlen(request), "%svalue-of-16-by%c", i == 0 ? "" : i < 12 ? "," : " ", 'a' + i);
    }
    strcat(file, "\nP 0 top deny-overrides * * * * * *\nR 1 r permit value-of-16-byl * * * * *\n");
    decides(strlen(request) == 288 ? "288 bytes" : "not 288 bytes", file, request, 0, PERMIT);
}

static void too_many(void)
{
    decides("12", "M x" TWELVE "\n" TOP, "l", 0, NOT_APPLICABLE);
    decides("13", "M x" TWELVE " m\n" TOP, "l", 5, 1);
    decides("16", "M x" SIXTEEN TOP, "l", 5, 1);
    decides("17", "M x" TWELVE " m n o p q\n" TOP, "l", 5, 1);
    decides("13, the last twice", "M x" TWELVE " l\n" TOP, "l", 4, 1);
    decides("13, the last twice but for case", "M x" TWELVE " A\n" TOP, "l", 4, 1);
    decides("13, the last bad", "M x" TWELVE " m_\n" TOP, "l", 3, 1);
    decides("13, twice and bad", "M x a a" TWELVE " -m\n" TOP, "l", 3, 1);
    decides("13 in an A", "A x" TWELVE " m\n" TOP, "m", 0, NOT_APPLICABLE);
    decides("63 times 63", "M x" SIX "M y" SIX TOP2, "a,f f", 0, NOT_APPLICABLE);
    decides("63 times 127", "M x" SIX "M y a b c d e f g\n" TOP2, "a a", 5, 2);
    decides("4,095 times 1", "A w a\nM x" TWELVE "\nM y a\nA z a\nP 0 top deny-overrides * * * *\n", "a k,l a a", 0,
            NOT_APPLICABLE);
    decides("4,095 times 2", "M x" TWELVE "\nA y a b\n" TOP2, "a a", 5, 2);
    decides("2 times 4,095", "A y a b\nM x" TWELVE "\n" TOP2, "a a", 5, 2);
    decides("4,095 times 3", "M x" TWELVE "\nM y a b\n" TOP2, "a a", 5, 2);
    decides("2,047 times 2", "M x a b c d e f g h i j k\nA y a b\n" TOP2, "a,k b", 0, NOT_APPLICABLE);
    decides("4,096 times 1", "A x" SIXTEEN "A y" SIXTEEN "A z" SIXTEEN "M w a\nP 0 top deny-overrides * * * *\n",
            "a b c a", 0, NOT_APPLICABLE);
    decides("4,096 times 3", "A x" SIXTEEN "A y" SIXTEEN "A z" SIXTEEN "M w a b\nP 0 top deny-overrides * * * *\n",
            "a b c a", 5, 4);
#define MIXED "A s a\nM t a\nA u a\nM v a\nM w a\nA x a\n"
    decides("six", MIXED "P 0 top deny-overrides * * * * * *\n", "a a a a a a", 0, NOT_APPLICABLE);
    decides("M as seventh", MIXED "M y a\nP 0 top deny-overrides * * * * * * *\n", "a", 5, 7);
    decides("A as seventh", MIXED "A y a\nP 0 top deny-overrides * * * * * * *\n", "a", 5, 7);
    decides("seventh of a name used", MIXED "M T a\nP 0 top deny-overrides * * * * * * *\n", "a", 4, 7);
}

static void lines(void)
{
    decides("only M lines", "M x a b\nM y c\nM z d e\nP 0 top first-applicable * * *\nR 1 r deny b * e\n", "a,b c d,e", 0,
            DENY);
    decides("M alone", "M\n" TOP, "a", 2, 1);
    decides("M without a value", "M x\n" TOP, "a", 2, 1);
    decides("MM", "MM x a\n" TOP, "a", 2, 1);
    decides("m", "m x a\n" TOP, "a", 2, 1);
    decides("AM", "A x a\nAM y a\n" TOP2, "a a", 2, 2);
    decides("M behind a tree line", "A x a\n" TOP "M y a\n", "a", 6, 3);
    decides("M behind a tree line, 2", "A x a\n" TOP "M y\n", "a", 2, 3);
    decides("M behind a tree line, 3", "A x a\n" TOP "M y_ a\n", "a", 3, 3);
    decides("M behind a tree line, 4", "A x a\n" TOP "M X a\n", "a", 4, 3);
    decides("M behind a tree line, 5", "A x a\n" TOP "M y" TWELVE " m\n", "a", 5, 3);
    decides("tree line before M", "P 0 top first-applicable\nM x a\n", "a", 6, 1);
    decides("tree line with a target before M", TOP "M x a\n", "a", 2, 1);
    decides("a target too few", "A x a\nM y a b\n" TOP, "a a", 2, 3);
    decides("a target too many", "M y a b\n" TOP2, "a", 2, 2);
    decides("no tree line", "M x a b\nM y a\n", "a a", 9, 0);
    decides("names of A and M", "A Role a\nM rOLE b\n" TOP2, "a b", 4, 2);
    decides("a value twice but for case", "M x Tech guest tecH\n" TOP, "guest", 4, 1);
    decides("a bad value", "M x a b,c\n" TOP, "a", 3, 1);
}

static void targets(void)
{
    decides("full list as target", "M x a b c\n" TOP "R 1 r permit a,b,c\n", "a", 8, 3);
    decides("the only value as target", "M x a\n" TOP "R 1 r permit a\n", "a", 8, 3);
    decides("wrong order", "M x a b c\n" TOP "R 1 r permit b,a\n", "a", 8, 3);
    decides("twice", "M x a b c\n" TOP "R 1 r permit b,b\n", "a", 8, 3);
    decides("empty piece", "M x a b c\n" TOP "R 1 r permit a,,b\n", "a", 8, 3);
    decides("other case", "M x Tech b c\n" TOP "R 1 r permit tech\n", "Tech", 8, 3);
    decides("all but one", "M x" TWELVE "\n" TOP "R 1 r permit b,c,d,e,f,g,h,i,j,k,l\n", "a,l", 0, PERMIT);
    decides("all but one, that one", "M x" TWELVE "\n" TOP "R 1 r permit b,c,d,e,f,g,h,i,j,k,l\n", "a", 0,
            NOT_APPLICABLE);
    decides("all twelve", "M x" TWELVE "\n" TOP "R 1 r permit a,b,c,d,e,f,g,h,i,j,k,l\n", "a", 8, 3);
}

/* A mask has a bit for each value, also of an M: one for each set would be wider. */
static void lists_of_sets(void)
{
    static const char good[] = "M x A b\nA y c d\nP 0 p deny-overrides * *\nR 1 r permit b c\n";
    struct record list[] = {
        {.kind = 'P', .depth = 0, .name = "p", .length = 1, .word = DENY_OVERRIDES, .mask = {3, 3}},
        {.kind = 'R', .depth = 1, .name = "r", .length = 1, .word = EFFECT_PERMIT, .mask = {2, 1}},
    };

    writes("M x A b\nA y c d\n", list, 0, sizeof good - 1, good);
    writes("M x" TWELVE " m\nA y c d\n", list, 5, 1, "");
    writes("M x A b\nM y c\nM X d\n", list, 4, 3, "");
    writes("M x A b\nA y c d\nM\n", list, 2, 3, "");
    writes("M x A b\nP 0 p deny-overrides *\nA y c d\n", list, 6, 2, "");
    writes("M x A b\nA y c d\nM z e\n", list, 8, 4, ""); /* no mask for z */
    list[1].mask[0] = 4;
    writes("M x A b\nA y c d\n", list, 8, 4, "");
    list[1].mask[0] = 0;
    writes("M x A b\nA y c d\n", list, 8, 4, "");
}

void cases_of_sets(void)
{
    numbers();
    decisions();
    request_lines();
    longest_request();
    too_many();
    lines();
    targets();
    lists_of_sets();
}
