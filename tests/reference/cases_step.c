/* C-18, worked out by hand: a text held and shortened step by step, what stands behind it, and decisions in between. */
#include "cases.h"

#include <stdio.h>
#include <string.h>

/* The text held, in the buffer as it is and as it must be; it never reaches the end. */
static struct { const char *file; size_t length; uint8_t bytes[FILE_BYTES + 100], wanted[FILE_BYTES + 100]; } held;

static void hold(const char *file)
{
    held.file = file;
    memset(held.wanted, 7, sizeof held.wanted);
    held.length = bytes_of(file, held.wanted);
    memcpy(held.bytes, held.wanted, sizeof held.bytes);
}

static void bad(const char *what, uint32_t number, uint32_t second, uint32_t third)
{
    printf("%s, %s: %lu %lu %lu\n", held.file, what, (unsigned long)number, (unsigned long)second, (unsigned long)third);
    bad_cases++;
}

static void step(const char *what, struct stepped wanted)
{
    struct stepped stepped = ref_step(held.bytes, held.length);

    if (stepped.number != wanted.number || stepped.second != wanted.second || stepped.struck != wanted.struck)
        bad(what, stepped.number, stepped.second, stepped.struck);
    if (memcmp(held.bytes, held.wanted, sizeof held.bytes) != 0)
        bad("other bytes", stepped.number, stepped.second, stepped.struck);
}

/* `behind` is what the old text had from the new length on. */
static void step_to(const char *left, const char *behind)
{
    size_t length = bytes_of(left, held.wanted), end = bytes_of(behind, held.wanted + length);

    if (length + end != held.length)
        bad("a case not worked out", 0, (uint32_t)length, (uint32_t)end);
    step("a rule struck", (struct stepped){0, (uint32_t)length, 1});
    held.length = length;
}

/* However often. */
static void none_left(void)
{
    step("none left", (struct stepped){0, (uint32_t)held.length, 0});
    step("none left, again", (struct stepped){0, (uint32_t)held.length, 0});
}

static void refuses(const char *file, uint32_t number, uint32_t second)
{
    hold(file);
    step("refused", (struct stepped){number, second, 0});
    step("refused, again", (struct stepped){number, second, 0});
}

static void decide(const char *line, size_t room, struct decided wanted, const char *obligations)
{
    uint8_t request[100], out[100];
    struct decided decided = ref_decide(held.bytes, held.length, request, bytes_of(line, request), out, room);

    if (decided.number != wanted.number || decided.second != wanted.second || decided.length != wanted.length
        || memcmp(out, obligations, wanted.length) != 0 || memcmp(held.bytes, held.wanted, sizeof held.bytes) != 0)
        bad(line, decided.number, decided.second, decided.length);
}

static void still(const char *line, enum decision decision, const char *obligations)
{
    uint32_t needed = (uint32_t)strlen(obligations);

    decide(line, needed, (struct decided){0, decision, needed}, obligations);
    if (needed > 0)
        decide(line, needed - 1, (struct decided){11, needed, 0}, "");
}

static void still_refused(const char *line, uint32_t place)
{
    decide(line, 100, (struct decided){10, place, 0}, "");
}

#define WORKED "A role tech guest\nA act jog teach\nP 0 cell first-applicable * *\nR 1 r1 permit tech *\n"
#define W2 "R 1 r2 deny guest teach\n"
#define W3 "R 1 r3 deny * teach\n"
#define W4 "R 1 r4 permit tech jog\n"

static void requests_of_worked(void)
{
    still("tech jog", PERMIT, "");
    still("tech teach", PERMIT, "");
    still_refused("tech jig", 2);
    still("guest jog", NOT_APPLICABLE, "");
    still("guest teach", DENY, "");
    still_refused("guest", 0);
}

static void worked(void)
{
    hold(WORKED W2 W3 W4);
    requests_of_worked();
    step_to(WORKED W2 W3, W4);
    requests_of_worked();
    step_to(WORKED W2, W3); /* what stands behind it is then the file first read */
    requests_of_worked();
    none_left();
    requests_of_worked();
    /* the text after a step is a fresh state as well */
    hold(WORKED W2 W3);
    step_to(WORKED W2, W3);
    none_left();
    /* another file in its place, without r2: it is r3 that stays */
    hold(WORKED W2 W3 W4);
    step_to(WORKED W2 W3, W4);
    hold(WORKED W3 W4);
    step_to(WORKED W3, W4);
    requests_of_worked();
    none_left();
}

#define TWINS "A x a b\nP 0 p first-applicable *\n"
#define ONE "R 1 One permit a\n"
#define OTHER "R 1 other permit a\n"
#define NINE "A x a b c\nP 0 p first-applicable *\n"
#define N1 "R 1 r1 permit a\n"
#define N2 "R 1 r2 deny a,b\n"
#define N3 "R 1 r3 permit a,c\n"
#define N4 "R 1 r4 deny b\n"

static void orders(void)
{
    /* case 8, in both orders */
    hold(TWINS ONE OTHER);
    step_to(TWINS ONE, OTHER);
    none_left();
    still("a", PERMIT, "");
    still("b", NOT_APPLICABLE, "");
    hold(TWINS OTHER ONE);
    step_to(TWINS OTHER, ONE);
    none_left();
    /* case 9 */
    hold(NINE N1 N2 N3 N4);
    step_to(NINE N1 N2 N3, N4);
    none_left();
    still("b", DENY, "");
    still("c", PERMIT, "");
    /* the first rule, with others behind it */
    hold(NINE N1 N3 N4);
    step_to(NINE N3 N4, "c\n" N4);
    still("a", PERMIT, "");
    still("b", DENY, "");
    none_left();
    /* a caller who keeps the old length has another text, and is told so */
    refuses(NINE N3 N4 "c\n" N4, 2, 5);
}

#define AGAIN "A x a b\nS 0 top first-applicable *\nP 1 p0 deny-overrides b\n"
#define AGAIN_REST "P 1 p1 first-applicable *\nR 2 r3 deny *\n"
#define SETS "M x a b c\nP 0 p first-applicable *\nR 1 r1 permit a,b\n"
#define NARROW "A x a b\nP 0 p first-applicable a\n"

static void places(void)
{
    /* r2 does work while r1 is there; the policy p0 stays without rules */
    hold(AGAIN "R 2 r1 permit *\nR 2 r2 deny b\n" AGAIN_REST);
    step_to(AGAIN "R 2 r2 deny b\n" AGAIN_REST, "*\nR 2 r3 deny *\n");
    still("a", DENY, "");
    still("b", DENY, "");
    step_to(AGAIN AGAIN_REST, "R 2 r3 deny *\n");
    still("b", DENY, "");
    none_left();
    refuses(AGAIN AGAIN_REST "R 2 r3 deny *\n", 4, 6);
    /* of a set of values; r3 keeps its end behind */
    hold(SETS "R 1 r2 permit a\nR 1 r3 permit b,c\n");
    step_to(SETS "R 1 r3 permit b,c\n", "1 r3 permit b,c\n");
    still("a", PERMIT, "");
    still("A,B,c", PERMIT, "");
    still_refused("b,a", 1);
    none_left();
    /* a line longer than all behind it: the end of the line itself stays */
    hold(NARROW "R 1 name-of-16-bytes permit b\nR 1 r deny a\n");
    step_to(NARROW "R 1 r deny a\n", "6-bytes permit b\nR 1 r deny a\n");
    still("a", DENY, "");
    still("b", NOT_APPLICABLE, "");
    none_left();
    /* the only rule, first and last; then no rule at all */
    hold(NARROW "R 1 r permit b\n");
    step_to(NARROW, "R 1 r permit b\n");
    still("a", NOT_APPLICABLE, "");
    none_left();
    hold("A x a\nP 0 p deny-overrides *\n");
    none_left();
    hold("M x a\nS 0 top only-one-applicable *\n");
    none_left();
    /* one value: every rule matches all */
    hold("A x a\nP 0 p permit-overrides *\nR 1 r deny *\nR 1 s permit *\nR 1 t deny *\n");
    step_to("A x a\nP 0 p permit-overrides *\nR 1 r deny *\nR 1 s permit *\n", "R 1 t deny *\n");
    step_to("A x a\nP 0 p permit-overrides *\nR 1 s permit *\n", "1 s permit *\n");
    still("a", PERMIT, "");
    none_left();
}

static void obligations(void)
{
#define BOTH(one, other) "A x a b\nS 0 top deny-overrides *\nP 1 p first-applicable *\n" one "R 2 r permit *\n" \
    "P 1 q first-applicable *\n" other
#define RIVALS(other, rule) "A x a b\nS 0 top first-applicable *\nP 1 p first-applicable *\nO log permit\n" rule \
    "P 1 q first-applicable *\nO " other " permit\nR 2 s permit *\n"
    /* s stays for its policy's obligation alone */
    hold(BOTH("O log permit\n", "O slow permit\n") "R 2 s permit a\n");
    still("a", PERMIT, "log\nslow\n");
    none_left();
    still("a", PERMIT, "log\nslow\n");
    still("b", PERMIT, "log\n");
    hold(BOTH("O log permit\n", "O slow deny\n") "R 2 s permit a\n");
    still("a", PERMIT, "log\n");
    step_to(BOTH("O log permit\n", "O slow deny\n"), "R 2 s permit a\n");
    still("a", PERMIT, "log\n");
    still("b", PERMIT, "log\n");
    none_left();
    hold(BOTH("", "") "R 2 s permit a\n");
    step_to(BOTH("", ""), "R 2 s permit a\n");
    none_left();
    /* without r the same name comes from another policy, or one that is the same but for case */
    hold(RIVALS("log", "R 2 r permit a\n"));
    still("a", PERMIT, "log\n");
    step_to(RIVALS("log", ""), "R 2 s permit *\n");
    still("a", PERMIT, "log\n");
    none_left();
    hold(RIVALS("Log", "R 2 r permit a\n"));
    none_left();
    still("a", PERMIT, "log\n");
    still("b", PERMIT, "Log\n");
    /* the lines of obligations in front of the rule stay */
    hold(NARROW "O log permit\nO slow deny\nR 1 r deny b\n");
    step_to(NARROW "O log permit\nO slow deny\n", "R 1 r deny b\n");
    none_left();
}

/* Rules that would be struck stay in a refused text. */
static void refusals(void)
{
    static char longer[FILE_BYTES + 2];

    memset(longer, '\n', FILE_BYTES + 1);
    refuses(longer, 1, 0);
    longer[FILE_BYTES] = 0;
    refuses(longer, 2, 1);
    refuses("", 9, 0);
    refuses("A x a b\n", 9, 0);
    refuses("\n", 2, 1);
    refuses(TWINS ONE "R 1 other permit a", 2, 4);
    refuses(TWINS ONE OTHER "\n", 2, 5);
    refuses(TWINS ONE OTHER "R 1 - permit a\n", 3, 5);
    refuses(TWINS ONE OTHER "R 1 oNE permit a\n", 4, 5);
    refuses("A x a" SIXTEEN "P 0 p first-applicable *\n", 4, 1);
    refuses("A x q" SIXTEEN "P 0 p first-applicable *\n", 5, 1);
    refuses(TWINS ONE OTHER "R 2 r permit a\n", 6, 5);
    refuses(TWINS ONE OTHER "R 1 r Permit a\n", 7, 5);
    refuses(TWINS ONE OTHER "R 1 r permit a,b\n", 8, 5);
    refuses(TWINS ONE OTHER "O log permit\n", 14, 5);
}

void cases_of_steps(void)
{
    worked();
    orders();
    places();
    obligations();
    refusals();
}
