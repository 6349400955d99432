/* The paper's cases "On each side of an edge" and those of changes C-11 and C-12, worked out by hand, run through the
 * reference; cases_sets.c has those of C-13, cases_pairs.c those of C-14, cases_obligations.c and cases_places.c those of
 * C-16, cases_rules.c those of C-17, cases_step.c those of C-18, cases_accept.c those of C-19, cases_join.c those of C-20.
 * Spaces stand for tabs, as in the paper. */
#include "cases.h"

#include <stdio.h>
#include <string.h>

#define CUBE "A x" SIXTEEN "A y" SIXTEEN "A z" SIXTEEN
#define SEVEN "A x a\nS 0 e0 first-applicable *\nS 1 e1 first-applicable *\nS 2 e2 first-applicable *\n" \
    "S 3 e3 first-applicable *\nS 4 e4 first-applicable *\nS 5 e5 first-applicable *\nP 6 e6 first-applicable *\n"
/* A set that is indeterminate on `a`: both its policies match, and the first is empty. */
#define BOTH(depth, below) "S " depth " both only-one-applicable *\n" \
    "P " below " empty first-applicable *\nP " below " full first-applicable *\n"
#define WORKED "A role tech guest\nA act jog teach\nP 0 cell first-applicable * *\nR 1 r1 permit tech *\n" \
    "R 1 r2 deny guest teach\n"

/* C-11: names may hold capitals, and are equal if they differ only in letter case. */

#define CAPITALS "A Role Tech guest\nA ACT Jog teach\nP 0 Cell first-applicable * *\nR 1 R1 permit Tech *\n" \
    "R 1 r-Z deny guest teach\n"
#define CAPITALS_STRUCK "R 1 r3 deny * teach\nR 1 R4 permit Tech Jog\n"

static void capitals(void)
{
    gives_text("capitals, report", ref_report, CAPITALS CAPITALS_STRUCK,
               "G 0 1 permit Cell,R1,R4\nG 1 1 permit Cell,R1,r3\nG 2 1 not-applicable Cell\nG 3 1 deny Cell,r-Z,r3\n"
               "C Cell R1 r3 1\nX R4\nX r3\nK R1 0\nK r-Z 3\n");
    gives_text("capitals, trimmed", ref_trim, CAPITALS CAPITALS_STRUCK, CAPITALS);
    decides("request as declared", CAPITALS, "Tech Jog", 0, PERMIT);
    decides("request in other case", CAPITALS, "tECH jog", 0, PERMIT);
    decides("request in capitals", CAPITALS, "GUEST TEACH", 0, DENY);
    decides("request, second field bad", CAPITALS, "GUEST TEACHE", 10, 2);
    decides("attributes but for case", "A Role a\nA y a\nA rOLE a\nP 0 p deny-overrides * * *\n", "a a a", 4, 3);
    decides("values but for case", "A x a b\nA y Tech guest tecH\nP 0 p deny-overrides * *\n", "a Tech", 4, 2);
    decides("elements but for case", "A x a\nS 0 Cell deny-overrides *\nP 1 p deny-overrides *\nR 2 cELL permit *\n",
            "a", 4, 4);
    decides("across pools", "A x X y\nA y x Y\nP 0 Y first-applicable * *\nR 1 X permit X x\n", "x X", 0, PERMIT);
    decides("target as declared", "A x Tech b c\nP 0 p deny-overrides Tech,b\nR 1 r deny *\n", "TECH", 0, DENY);
    decides("target in other case", "A x Tech b c\nP 0 p deny-overrides tech,b\n", "Tech", 8, 2);
    decides("target, later value in other case", "A x Tech b c\nP 0 p deny-overrides Tech,B\n", "Tech", 8, 2);
    decides("target, value again in other case", "A x Tech b c\nP 0 p deny-overrides Tech,tech\n", "Tech", 8, 2);
    decides("4 over 6 to 8", "A x a b\nP 0 p deny-overrides *\nS 9 P Permit a,b\n", "a", 4, 3);
    decides("3 over 4", "A x a A a@\nP 0 p deny-overrides *\n", "a", 3, 1);
}

static void words_and_letters(void)
{
    decides("Permit", "A x a\nP 0 p deny-overrides *\nR 1 r Permit *\n", "a", 7, 3);
    decides("DENY", "A x a\nP 0 p deny-overrides *\nR 1 r DENY *\n", "a", 7, 3);
    decides("Deny-overrides", "A x a\nP 0 p Deny-overrides *\n", "a", 7, 2);
    decides("first-Applicable", "A x a\nP 0 p first-Applicable *\n", "a", 7, 2);
    decides("only-one-applicablE", "A x a\nS 0 p only-one-applicablE *\n", "a", 7, 2);
    decides("a", "a x a\nP 0 p deny-overrides *\n", "a", 2, 1);
    decides("s", "A x a\ns 0 p deny-overrides *\n", "a", 2, 2);
    decides("p", "A x a\np 0 p deny-overrides *\n", "a", 2, 2);
    decides("r", "A x a\nP 0 p deny-overrides *\nr 1 r permit *\n", "a", 2, 3);
}

/* The bytes on both sides of A-Z and a-z, at each place of a name of each pool. */
static void bytes_beside_letters(void)
{
    static const struct { const char *one; uint32_t line; const char *two; uint32_t later_line; } pools[] = {
        {"A %s v w\nP 0 p deny-overrides *\n", 1, "A %s w\nA %s w\n", 2},
        {"A x %s w\nP 0 p deny-overrides *\n", 1, "A x %s %s\n", 1},
        {"A x v w\nP 0 %s deny-overrides *\n", 2, "A x w\nP 0 %s deny-overrides *\nR 1 %s permit *\n", 3},
    };
    static const char good[] = "AZaz", others[] = "azAZ", refused[] = "@[`{";
    char file[100], name[] = "nnn", other[] = "nnn";

    for (size_t pool = 0; pool < 3; pool++)
        for (int place = 0; place < 3; place++) {
            for (int i = 0; i < 4; i++) {
                name[place] = good[i];
                other[place] = others[i];
                sprintf(file, pools[pool].one, name);
                decides(file, file, "w", 0, NOT_APPLICABLE);
                sprintf(file, pools[pool].two, name, other);
                decides(file, file, "w", 4, pools[pool].later_line);
                name[place] = refused[i];
                sprintf(file, pools[pool].one, name);
                decides(file, file, "w", 3, pools[pool].line);
            }
            name[place] = other[place] = 'n';
        }
    decides("request @", "A x v0 v-\nP 0 p deny-overrides *\n", "@", 10, 1);
    decides("request v{", "A x v0 v-\nP 0 p deny-overrides *\n", "v{", 10, 1);
    /* other in the bit that tells A from a, but no letters; and a letter with another bit set */
    decides("request byte 16 for 0", "A x v0 v-\nP 0 p deny-overrides *\n", "v\x10", 10, 1);
    decides("request byte 13 for -", "A x v0 v-\nP 0 p deny-overrides *\n", "v\r", 10, 1);
    decides("request byte 246 for v", "A x v0 v-\nP 0 p deny-overrides *\n", "\xf6" "0", 10, 1);
}

#define NAME "name-of-16-bytes"

/* The same name in other case at one end alone. */
static void long_names(void)
{
    static const char *const other[] = {"Name-of-16-bytes", "name-of-16-byteS"};
    char file[200];

    for (int i = 0; i < 2; i++) {
        sprintf(file, "A " NAME " a\nA %s a\nP 0 p deny-overrides * *\n", other[i]);
        decides("long attributes", file, "a a", 4, 2);
        sprintf(file, "A x " NAME " a %s\nP 0 p deny-overrides *\n", other[i]);
        decides("long values", file, "a", 4, 1);
        sprintf(file, "A x a\nP 0 " NAME " deny-overrides *\nR 1 %s permit *\n", other[i]);
        decides("long elements", file, "a", 4, 3);
        sprintf(file, "A x " NAME " a\nP 0 p deny-overrides %s\n", other[i]);
        decides("long target", file, "a", 8, 2);
        decides("long request", "A x " NAME " a\nP 0 p deny-overrides *\nR 1 r permit " NAME "\n", other[i], 0, PERMIT);
    }
    decides("long names that are not equal", "A x " NAME " mame-of-16-bytes name-of-16-bytet\nP 0 p deny-overrides *\n"
            "R 1 r deny name-of-16-bytet\n", "NAME-OF-16-BYTET", 0, DENY);
}

/* An attribute line of 40 values of 16 bytes: 5, but 4 if the value `later` is an earlier one in other case. */
static void long_line(int earlier, int later, uint32_t number)
{
    char file[1000], what[40];
    size_t length = (size_t)sprintf(file, "A x");

    for (int i = 0; i < 40; i++)
        length += (size_t)sprintf(file + length, i == later ? " VALUE-%02d-Of-lonG" : " value-%02d-of-long",
                                  i == later ? earlier : i);
    sprintf(file + length, "\nP 0 p deny-overrides *\n");
    sprintf(what, "40 values, %d and %d", earlier, later);
    decides(what, file, "a", number, 1);
}

static void long_lines(void)
{
    long_line(5, 5, 5);
    long_line(0, 39, 4);
    long_line(0, 1, 4);
    long_line(15, 16, 4);
    long_line(38, 39, 4);
}

static void writes_names(const char *policy, const char *rule, uint32_t number, uint32_t second, const char *text)
{
    struct record list[] = {
        {.kind = 'P', .depth = 0, .length = (uint8_t)strlen(policy), .word = DENY_OVERRIDES, .mask = {3}},
        {.kind = 'R', .depth = 1, .length = (uint8_t)strlen(rule), .word = EFFECT_PERMIT, .mask = {1}},
    };

    memcpy(list[0].name, policy, strlen(policy));
    memcpy(list[1].name, rule, strlen(rule));
    writes("A x A b\n", list, number, second, text);
}

static void lists(void)
{
    static const char good[] = "A x A b\nP 0 Cell deny-overrides *\nR 1 cel permit A\n";

    writes_names("Cell", "cel", 0, sizeof good - 1, good);
    writes_names("Cell", "cELL", 4, 3, "");
    writes_names(NAME, "Name-of-16-bytes", 4, 3, "");
    writes_names(NAME, "name-of-16-byteS", 4, 3, "");
    writes_names("Cell", "@", 3, 3, "");
    writes_names("Cell", "c[", 3, 3, "");
    writes_names("c`ll", "r", 3, 2, "");
    writes_names("{ell", "r", 3, 2, "");
}

/* C-12: a conflict is shown with the lowest request to which the parent applies and on which its children differ. */
static void lowest_requests(void)
{
    gives_text("opposed on 1 and 3", ref_report,
               "A x a b c d\nP 0 top first-applicable *\nR 1 r1 permit b,c,d\nR 1 r2 deny b,d\n",
               "G 0 1 not-applicable top\nG 1 2 permit top,r1,r2\nG 2 1 permit top,r1\nC top r1 r2 1\nX r2\nK r1 1\n");
    gives_text("opposed on all, the parent applies to 4 and 5", ref_report,
               "A x a b\nA y c d e\nS 0 top first-applicable b *\nP 1 p deny-overrides * d,e\nR 2 r1 permit * *\n"
               "R 2 r2 deny * *\n",
               "G 0 3 not-applicable -\nG 3 1 not-applicable top\nG 4 2 deny top,p,r1,r2\nC p r1 r2 4\nX r1\nK r2 4\n");
    gives_text("opposed on 63 and 127, on 127, from 64 on", ref_report,
               "A x a b\nA y" SIXTEEN "A z a b c d\nP 0 top deny-overrides * * *\nR 1 r63 permit * p d\n"
               "R 1 no deny * * *\nR 1 no-b deny b * *\nR 1 r64 permit b * *\n",
               "G 0 63 deny top,no\nG 63 1 deny top,r63,no\nG 64 63 deny top,no,no-b,r64\n"
               "G 127 1 deny top,r63,no,no-b,r64\nC top r63 no 63\nC top r63 no-b 127\nC top no r64 64\n"
               "C top no-b r64 64\nX r64\nX no-b\nX r63\nK no 0\n");
}

int main(void)
{
    gives_text("1", ref_report, WORKED "R 1 r3 deny * teach\nR 1 r4 permit tech jog\n",
               "G 0 1 permit cell,r1,r4\nG 1 1 permit cell,r1,r3\nG 2 1 not-applicable cell\nG 3 1 deny cell,r2,r3\n"
               "C cell r1 r3 1\nX r4\nX r3\nK r1 0\nK r2 3\n");
    gives_text("1, trimmed", ref_trim, WORKED "R 1 r3 deny * teach\nR 1 r4 permit tech jog\n", WORKED);
    decides("2, accepted", CUBE "P 0 p first-applicable * * *\n", "p p p", 0, NOT_APPLICABLE);
    decides("2, refused", CUBE "A w a b\nP 0 p first-applicable * * * *\n", "p p p a", 5, 4);
    decides("3, depth 7", SEVEN "R 7 e7 deny *\n", "a", 0, DENY);
    decides("3, depth 8", SEVEN "R 8 e7 deny *\n", "a", 6, 9);
    decides("3, depth 07", SEVEN "R 07 e7 deny *\n", "a", 6, 9);
    decides("4", "A x a b\n" BOTH("0", "1") "R 2 r permit *\n", "a", 0, INDETERMINATE);
    decides("5", "A x a b\nS 0 top deny-overrides *\n" BOTH("1", "2") "R 3 r permit *\n", "a", 0, DENY);
    decides("6", "A x a b\nS 0 top permit-overrides *\n" BOTH("1", "2") "R 3 r permit *\n"
            "P 1 other first-applicable *\nR 2 no deny *\n", "b", 0, DENY);
    decides("7", "A x a b\nS 0 top first-applicable *\n" BOTH("1", "2") "R 3 r permit *\n"
            "P 1 other first-applicable *\nR 2 yes permit *\n", "b", 0, INDETERMINATE);
    gives_text("8", ref_trim, "A x a b\nP 0 p first-applicable *\nR 1 r1 permit a\nR 1 r2 permit a\n",
               "A x a b\nP 0 p first-applicable *\nR 1 r1 permit a\n");
    gives_text("9", ref_trim, "A x a b c\nP 0 p first-applicable *\nR 1 r1 permit a\nR 1 r2 deny a,b\n"
               "R 1 r3 permit a,c\nR 1 r4 deny b\n",
               "A x a b c\nP 0 p first-applicable *\nR 1 r1 permit a\nR 1 r2 deny a,b\nR 1 r3 permit a,c\n");
    decides("10", "A x a b\nP 0 p deny-overrides *\n", "b", 0, NOT_APPLICABLE);
    gives_text("10, trimmed", ref_trim, "A x a b\nP 0 p deny-overrides *\n", "A x a b\nP 0 p deny-overrides *\n");
    decides("11", "", "a", 9, 0);
    decides("12", "A x a b\nP 0 p deny-overrides a,b\n", "a", 8, 2);
    decides("13", "A x a b\nP 0 p deny-overrides *\n", "", 10, 1);
    decides("13, two attributes", WORKED, "", 10, 0);
    decides("13, a tab", WORKED, " ", 10, 1);
    capitals();
    words_and_letters();
    bytes_beside_letters();
    long_names();
    long_lines();
    lists();
    lowest_requests();
    cases_of_sets();
    cases_of_pairs();
    cases_of_obligations();
    cases_of_places();
    cases_of_rules();
    cases_of_steps();
    cases_of_proposals();
    cases_of_joining();
    puts(bad_cases == 0 ? "all cases hold" : "cases fail");
    return bad_cases != 0;
}
