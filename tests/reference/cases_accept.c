/* C-19, worked out by hand: proposals that are accepted, and 16, 17 and 18 for the others. */
#include "cases.h"

#include <stdio.h>
#include <string.h>

static void answers(const char *original, const char *proposal, uint32_t number, uint32_t second)
{
    static uint8_t one[FILE_BYTES + 2], other[FILE_BYTES + 2];
    struct answer answer = ref_accept(one, bytes_of(original, one), other, bytes_of(proposal, other));

    if (answer.number == number && answer.second == second)
        return;
    printf("%s, proposal %s: %lu %lu\n", original, proposal, (unsigned long)answer.number, (unsigned long)answer.second);
    bad_cases++;
}

static void accepts(const char *original, const char *proposal)
{
    answers(original, proposal, 0, 0);
}

#define HEAD "A role tech guest\nA act jog teach\nP 0 cell first-applicable * *\n"
#define W1 "R 1 r1 permit tech *\n"
#define W2 "R 1 r2 deny guest teach\n"
#define W3 "R 1 r3 deny * teach\n"
#define W4 "R 1 r4 permit tech jog\n"
#define WORKED HEAD W1 W2 W3 W4

static void worked(void)
{
    accepts(WORKED, HEAD W1 W2); /* its trimmed text */
    accepts(WORKED, HEAD W1 W3); /* r2 and r3 do the same work: trimming keeps r2 */
    accepts(HEAD W1 W2, HEAD W1 W2);
    accepts(HEAD W1 W3, HEAD W1 W3);
    /* no rule but r1 permits a tech to teach, and guests are denied by r2 or r3 alone */
    answers(WORKED, HEAD W1, 17, 3);
    answers(WORKED, HEAD W1 W4, 17, 3); /* r4 is needless there */
    answers(WORKED, HEAD W3 W4, 17, 1);
    answers(WORKED, HEAD W2 W3 W4, 17, 1);
    answers(WORKED, HEAD W2 W4, 17, 1);
    answers(WORKED, HEAD W2, 17, 0);
    answers(WORKED, HEAD, 17, 0);
    /* the topmost needless rule, each tested with all others there; trimming would strike the last */
    answers(WORKED, WORKED, 18, 5);
    answers(WORKED, HEAD W1 W2 W3, 18, 5);
    answers(WORKED, HEAD W1 W2 W4, 18, 6);
    answers(WORKED, HEAD W1 W3 W4, 18, 6);
}

/* Lines that are not the original's, whatever they decide. */
static void lines(void)
{
    /* in another order, under another name, with another effect, wider, or narrower but with the same effect */
    answers(WORKED, HEAD W1 W3 W2, 16, 6);
    answers(WORKED, HEAD W2 W1, 16, 5);
    answers(WORKED, HEAD W1 W2 W4 W3, 16, 7);
    answers(WORKED, HEAD W1 "R 1 r5 deny guest teach\n", 16, 5);
    answers(WORKED, HEAD "R 1 r1 deny tech *\n" W2, 16, 4);
    answers(WORKED, HEAD W1 "R 1 r2 deny guest *\n", 16, 5);
    answers(WORKED, HEAD W1 "R 1 r3 deny guest teach\n", 16, 5);
    /* one line more, in the middle and beyond the end */
    answers(WORKED, HEAD W1 "R 1 r5 deny guest teach\n" W2, 16, 5);
    answers(WORKED, WORKED "R 1 r5 deny tech jog\n", 16, 8);
    answers(HEAD W1 W2, WORKED, 16, 6);
    answers(HEAD W1 W2, HEAD W1 W2 W4, 16, 6);
    answers(HEAD, HEAD W1, 16, 4);
    /* names are equal, bytes are not */
    answers(WORKED, HEAD W1 "R 1 R2 deny guest teach\n", 16, 5);
    answers(WORKED, "A role tech guest\nA act jog teach\nP 0 Cell first-applicable * *\n" W1 W2, 16, 3);
    answers(WORKED, "A role tech guest\nA acT jog teach\nP 0 cell first-applicable * *\n" W1 W2, 16, 2);
    answers("A x a b\nP 0 p first-applicable *\n", "A x a B\nP 0 p first-applicable *\n", 16, 1);
    /* attributes: letter, values, order, one more or less */
    answers(HEAD, "M role tech guest\nA act jog teach\nP 0 cell first-applicable * *\n", 16, 1);
    answers(HEAD, "A role tech guest\nA act jog teach halt\nP 0 cell first-applicable * *\n", 16, 2);
    answers(HEAD, "A role tech guest\nA act jog\nP 0 cell first-applicable * *\n", 16, 2);
    answers(HEAD, "A role guest tech\nA act jog teach\nP 0 cell first-applicable * *\n", 16, 1);
    answers(HEAD, "A act jog teach\nA role tech guest\nP 0 cell first-applicable * *\n", 16, 1);
    answers(HEAD, "A role tech guest\nP 0 cell first-applicable *\n", 16, 2);
    answers(HEAD, "A role tech guest\nA act jog teach\nA hand left\nP 0 cell first-applicable * * *\n", 16, 3);
    /* the policy: kind, word, target */
    answers(HEAD, "A role tech guest\nA act jog teach\nS 0 cell first-applicable * *\n", 16, 3);
    answers(HEAD, "A role tech guest\nA act jog teach\nP 0 cell deny-overrides * *\n", 16, 3);
    answers(HEAD, "A role tech guest\nA act jog teach\nP 0 cell first-applicable tech *\n", 16, 3);
}

#define TREE "A x a b\nS 0 top first-applicable *\n"
#define P "P 1 p first-applicable *\n"
#define Q "P 1 q first-applicable *\n"
#define R "R 2 r permit a\n"
#define S "R 2 s deny *\n"
#define T "R 2 t permit a\n"

static void policies(void)
{
    accepts(TREE P R Q S, TREE P R Q S);
    answers(TREE P R Q S, TREE P R Q, 17, 1);
    answers(TREE P R Q S, TREE P Q S, 17, 0);
    /* only rules are skipped */
    answers(TREE P R Q S, TREE Q S, 16, 3);
    answers(TREE P R Q S, "A x a b\nP 0 p first-applicable *\n", 16, 2);
    answers(TREE P R Q S, TREE P S Q, 16, 4);
    answers(TREE P R Q S, TREE P Q R S, 16, 5);
    answers(TREE P R Q S, TREE Q S P R, 16, 3);
    answers(TREE P R Q S, TREE P R Q S "P 1 o deny-overrides *\n", 16, 7);
    answers(TREE P R, TREE P R Q, 16, 5);
    /* rules may be left over at the end, also many, but nothing else, whatever stands behind it */
    accepts(TREE P S T, TREE P S);
    accepts(TREE P S T "R 2 u deny b\n", TREE P S);
    accepts(TREE P S Q R, TREE P S Q);
    answers(TREE P R Q S, TREE P R, 16, 0);
    answers(TREE P R Q S, TREE P, 16, 0);
    answers(TREE P R Q S, TREE, 16, 0);
    answers(TREE P R Q, TREE P R, 16, 0);
    answers(TREE P S T Q R, TREE P S, 16, 0);
    accepts(TREE P R Q, TREE P R Q);
    /* without rules */
    accepts(TREE, TREE);
    accepts(TREE P Q, TREE P Q);
    accepts("A x a\nP 0 p deny-overrides *\n", "A x a\nP 0 p deny-overrides *\n");
    accepts("M x a\nS 0 top only-one-applicable *\n", "M x a\nS 0 top only-one-applicable *\n");
    accepts("A x a b\nP 0 p first-applicable a\nR 1 r permit b\n", "A x a b\nP 0 p first-applicable a\n");
    answers("A x a b\nP 0 p first-applicable a\nR 1 r permit b\n", "A x a b\nP 0 p first-applicable a\nR 1 r permit b\n",
            18, 3);
}

#define TWINS "A x a b\nP 0 p first-applicable *\n"
#define ONE "R 1 One permit a\n"
#define OTHER "R 1 other permit a\n"
#define TEN "R 1 0 permit a\nR 1 1 permit a\nR 1 2 permit a\nR 1 3 permit a\nR 1 4 permit a\nR 1 5 permit a\n" \
    "R 1 6 permit a\nR 1 7 permit a\nR 1 8 permit a\nR 1 9 permit a\n"
#define NINE "A x a b c\nP 0 p first-applicable *\n"
#define N1 "R 1 r1 permit a\n"
#define N2 "R 1 r2 deny a,b\n"
#define N3 "R 1 r3 permit a,c\n"
#define N4 "R 1 r4 deny b\n"
#define SETS "M x a b c\nP 0 p first-applicable *\n"
#define S1 "R 1 r1 permit a,b\n"
#define S2 "R 1 r2 permit a\n"
#define S3 "R 1 r3 permit b,c\n"
#define SIX "A x a b\nS 0 top permit-overrides *\nS 1 both only-one-applicable *\nP 2 empty first-applicable *\n" \
    "P 2 full first-applicable *\nP 1 other first-applicable *\n"
#define CUBE "A x" SIXTEEN "A y" SIXTEEN "A z" SIXTEEN "P 0 p permit-overrides * * *\n"

static void needless(void)
{
    /* case 8: each is needless while the other is there */
    accepts(TWINS ONE OTHER, TWINS ONE);
    accepts(TWINS ONE OTHER, TWINS OTHER);
    answers(TWINS ONE OTHER, TWINS ONE OTHER, 18, 3);
    answers(TWINS ONE OTHER, TWINS, 17, 0);
    answers(TWINS ONE OTHER, TWINS OTHER ONE, 16, 4);
    accepts(TWINS ONE TEN "R 1 last deny b\n", TWINS ONE "R 1 last deny b\n");
    /* case 9: r1 is needed in the original, but not where r2 is left out */
    accepts(NINE N1 N2 N3 N4, NINE N1 N2 N3);
    accepts(NINE N1 N2 N3 N4, NINE N3 N4);
    answers(NINE N1 N2 N3 N4, NINE N1 N2 N3 N4, 18, 4);
    answers(NINE N1 N2 N3 N4, NINE N1 N3 N4, 18, 3);
    answers(NINE N1 N2 N3 N4, NINE N1 N2 N4, 17, 2);
    answers(NINE N1 N2 N3 N4, NINE N2 N3 N4, 17, 0);
    answers(NINE N1 N2 N3 N4, NINE N1 N2, 17, 2);
    answers(NINE N1 N2 N3 N4, NINE N3, 17, 1);
    /* sets of values: a, b, both, c and on */
    accepts(SETS S1 S2 S3, SETS S1 S3);
    accepts(SETS S1 S2 S3, SETS S2 S3);
    answers(SETS S1 S2 S3, SETS S1 S2 S3, 18, 3);
    answers(SETS S1 S2 S3, SETS S1, 17, 3);
    answers(SETS S1 S2 S3, SETS S2, 17, 1);
    answers(SETS S1 S2 S3, SETS S3, 17, 0);
    answers(SETS S1 S2 S3, SETS S1 S2, 17, 3);
    answers("M x a b c\nP 0 p first-applicable a\nR 1 r permit b\n", "M x a b c\nP 0 p first-applicable a\n", 17, 2);
    /* case 6: indeterminate without the rule */
    answers(SIX "R 2 no deny *\n", SIX, 17, 0);
    accepts(SIX "R 2 no deny *\n", SIX "R 2 no deny *\n");
    /* the last request of the greatest space */
    answers(CUBE "R 1 r permit p p p\n", CUBE, 17, 4095);
    accepts(CUBE "R 1 r permit p p p\n", CUBE "R 1 r permit p p p\n");
    answers(CUBE "R 1 r deny p p o\nR 1 s permit p * *\n", CUBE "R 1 r deny p p o\nR 1 s permit p * *\n", 18, 5);
}

static void obligations(void)
{
#define LOG "O log permit\n"
#define SLOW "O slow deny\n"
#define BOTH(other) "A x a b\nS 0 top deny-overrides *\nP 1 p first-applicable *\n" LOG "R 2 r permit *\n" \
    "P 1 q first-applicable *\n" other
#define RIVALS(other, rule) "A x a b\nS 0 top first-applicable *\nP 1 p first-applicable *\n" LOG rule \
    "P 1 q first-applicable *\nO " other " permit\nR 2 s permit *\n"
    /* a line left out: the next line is told, or 0 if there is none */
    accepts(TREE P LOG R Q SLOW S, TREE P LOG R Q SLOW S);
    answers(TREE P LOG R Q SLOW S, TREE P R Q SLOW S, 16, 4);
    answers(TREE P LOG R Q SLOW S, TREE P Q SLOW S, 16, 4);
    answers(TREE P LOG R Q SLOW S, TREE P LOG R Q S, 16, 7);
    answers(TREE P LOG R Q SLOW S, TREE P LOG R Q, 16, 0);
    answers(TREE P LOG R Q SLOW, TREE P LOG R Q, 16, 0);
    answers(TREE P LOG, TREE P, 16, 0);
    answers(TREE P LOG SLOW R, TREE P SLOW R, 16, 4);
    answers(TREE P LOG SLOW R, TREE P LOG R, 16, 5);
    /* put there, exchanged, or with another word or spelling */
    answers(TREE P R, TREE P LOG R, 16, 4);
    answers(TREE P LOG R, TREE P LOG SLOW R, 16, 5);
    answers(TREE P, TREE P LOG, 16, 4);
    answers(TREE P LOG SLOW R, TREE P SLOW LOG R, 16, 4);
    answers(TREE P LOG R, TREE P "O log deny\n" R, 16, 4);
    answers(TREE P LOG R, TREE P "O Log permit\n" R, 16, 4);
    answers(TREE P LOG R Q S, TREE P R Q LOG S, 16, 4);
    /* a rule for its policy's obligation alone */
    answers(BOTH("O slow permit\n") "R 2 s permit a\n", BOTH("O slow permit\n"), 17, 0);
    answers(BOTH("O slow permit\n") "R 2 s permit b\n", BOTH("O slow permit\n"), 17, 1);
    accepts(BOTH("O slow permit\n") "R 2 s permit a\n", BOTH("O slow permit\n") "R 2 s permit a\n");
    accepts(BOTH(SLOW) "R 2 s permit a\n", BOTH(SLOW));
    answers(BOTH(SLOW) "R 2 s permit a\n", BOTH(SLOW) "R 2 s permit a\n", 18, 8);
    answers(BOTH("O slow permit\n") "R 2 s permit a\nR 2 t permit *\n",
            BOTH("O slow permit\n") "R 2 s permit a\nR 2 t permit *\n", 18, 8);
    answers(BOTH("O slow permit\n") "R 2 s permit a\nR 2 t permit *\n", BOTH("O slow permit\n") "R 2 s permit a\n", 17, 1);
    answers("A x a b\nS 0 top permit-overrides *\nP 1 p first-applicable *\nR 2 r deny *\nP 1 q deny-overrides *\n" SLOW S,
            "A x a b\nS 0 top permit-overrides *\nP 1 p first-applicable *\nR 2 r deny *\nP 1 q deny-overrides *\n" SLOW,
            17, 0);
    /* other obligations at a, another decision at b */
    answers(TREE P LOG R "R 2 t permit b\n" Q "R 2 s permit a\n", TREE P LOG Q "R 2 s permit a\n", 17, 0);
    /* without r the same name comes from another policy, or one that is the same but for case */
    accepts(RIVALS("log", "R 2 r permit a\n"), RIVALS("log", ""));
    answers(RIVALS("log", "R 2 r permit a\n"), RIVALS("log", "R 2 r permit a\n"), 18, 5);
    answers(RIVALS("Log", "R 2 r permit a\n"), RIVALS("Log", ""), 17, 0);
    answers(RIVALS("lag", "R 2 r permit b\n"), RIVALS("lag", ""), 17, 1);
    accepts(RIVALS("Log", "R 2 r permit a\n"), RIVALS("Log", "R 2 r permit a\n"));
    answers(RIVALS("slow permit\nO log", "O slow permit\nR 2 r permit a\n"),
            RIVALS("slow permit\nO log", "O slow permit\n"), 17, 0); /* log and slow, then in the other order */
}

/* 64 elements, all but one with two obligations; the rule is on the last line. */
static void late_lines(void)
{
    static char file[FILE_BYTES], proposal[FILE_BYTES];
    size_t length = (size_t)sprintf(file, TREE LOG SLOW);

    for (int policy = 1; policy <= 62; policy++)
        length += (size_t)sprintf(file + length, "P 1 p%d first-applicable a\n" LOG SLOW, policy);
    strcpy(proposal, file);
    answers(file, proposal, 0, 0);
    strcpy(file + length, "R 2 r permit b\n");
    answers(file, proposal, 0, 0);
    answers(proposal, file, 16, 191);
    answers(file, file, 18, 191);
    strcpy(proposal + length, "R 2 R permit b\n");
    answers(file, proposal, 16, 191);
    proposal[length - strlen(SLOW)] = 0;
    answers(file, proposal, 16, 0);
}

/* The original's comes first, then the proposal's, then 16. */
static void refusals(void)
{
    static char longer[FILE_BYTES + 2];

    memset(longer, '\n', FILE_BYTES + 1);
    answers(longer, WORKED, 1, 0);
    answers(WORKED, longer, 1, 0);
    answers(longer, "", 1, 0);
    answers("", longer, 9, 0);
    longer[FILE_BYTES] = 0;
    answers(longer, WORKED, 2, 1);
    answers(WORKED, longer, 2, 1);
    answers("", "", 9, 0);
    answers("", TWINS, 9, 0);
    answers(TWINS, "", 9, 0);
    answers(TWINS, "A x a b\n", 9, 0);
    answers(TWINS "R 1 - permit a\n", "A x a b\n", 3, 3);
    answers("A x a b\n", TWINS "R 1 - permit a\n", 9, 0);
    answers(TWINS ONE "R 1 r permit a,b\n", TWINS "R 2 r permit a\n", 8, 4);
    answers(TWINS "R 2 r permit a\n", TWINS ONE "R 1 r permit a,b\n", 6, 3);
    answers(TWINS ONE "R 1 oNE permit a\n", TWINS ONE "R 1 oNE permit a\n", 4, 4);
    answers(TWINS ONE, "A y a b\nP 0 p first-applicable *\nR 1 - permit a\n", 3, 3);
    answers(TWINS ONE, TWINS ONE "O log permit\n", 14, 4);
    answers(TWINS ONE "O log permit\n", TWINS ONE, 14, 4);
    answers(TWINS ONE, TWINS "R 1 One permit a", 2, 3);
    answers(TWINS ONE, TWINS ONE ONE, 4, 4);
    answers(TWINS ONE, TWINS "R 1 One Permit a\n", 7, 3);
    answers(TWINS ONE, "A x a b\nA x a b\nP 0 p first-applicable * *\n", 4, 2);
    answers(TWINS ONE, "A x q" SIXTEEN "P 0 p first-applicable *\n", 5, 1);
}

void cases_of_proposals(void)
{
    worked();
    lines();
    policies();
    needless();
    obligations();
    late_lines();
    refusals();
}
