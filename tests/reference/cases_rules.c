/* C-17, worked out by hand: the rule that trimming strikes next, and striking a rule by its name. */
#include "cases.h"

#include <string.h>

static struct slice rule; /* the one that `strike` is asked for */

static struct answer strike(const uint8_t *file, size_t length, uint8_t *out, size_t room)
{
    return ref_strike(file, length, rule.bytes, rule.length, out, room);
}

/* An empty name: there is none. */
static void shows(const char *policy, const char *name)
{
    gives_text(policy, ref_next_rule, policy, name);
}

static void strikes(const char *policy, const char *name, const char *left)
{
    rule = (struct slice){(const uint8_t *)name, strlen(name)};
    gives_text(name, strike, policy, left);
}

/* In a buffer of any length, also of 0. */
static void refuses(const char *policy, const char *name, uint32_t number, uint32_t second)
{
    rule = (struct slice){(const uint8_t *)name, strlen(name)};
    refuses_text(name, strike, policy, 1000, number, second);
    refuses_text(name, strike, policy, 0, number, second);
}

#define WORKED "A role tech guest\nA act jog teach\nP 0 cell first-applicable * *\nR 1 r1 permit tech *\n"
#define W2 "R 1 r2 deny guest teach\n"
#define W3 "R 1 r3 deny * teach\n"
#define W4 "R 1 r4 permit tech jog\n"
#define TWINS "A x a b\nP 0 p first-applicable *\n"
#define ONE "R 1 One permit a\n"
#define OTHER "R 1 other permit a\n"
#define NINE "A x a b c\nP 0 p first-applicable *\n"
#define N1 "R 1 r1 permit a\n"
#define N2 "R 1 r2 deny a,b\n"
#define N3 "R 1 r3 permit a,c\n"
#define N4 "R 1 r4 deny b\n"

static void orders(void)
{
    /* r2 and r3 deny the same request that gets so far: each alone is needless, but not both */
    shows(WORKED W2 W3 W4, "r4");
    strikes(WORKED W2 W3 W4, "r4", WORKED W2 W3);
    shows(WORKED W2 W3, "r3");
    strikes(WORKED W2 W3, "r3", WORKED W2);
    shows(WORKED W2, "");
    refuses(WORKED W2, "r2", 15, 0);
    refuses(WORKED W2, "r1", 15, 0);
    strikes(WORKED W2 W3 W4, "r2", WORKED W3 W4);
    refuses(WORKED W3 W4, "r3", 15, 0);
    refuses(WORKED W2 W3 W4, "r1", 15, 0);
    /* case 8 */
    shows(TWINS ONE OTHER, "other");
    strikes(TWINS ONE OTHER, "other", TWINS ONE);
    strikes(TWINS ONE OTHER, "One", TWINS OTHER);
    shows(TWINS OTHER, "");
    refuses(TWINS OTHER, "other", 15, 0);
    /* case 9: what another order leaves is no trimmed text of the file */
    shows(NINE N1 N2 N3 N4, "r4");
    strikes(NINE N1 N2 N3 N4, "r4", NINE N1 N2 N3);
    shows(NINE N1 N2 N3, "");
    strikes(NINE N1 N2 N3 N4, "r2", NINE N1 N3 N4);
    shows(NINE N1 N3 N4, "r1");
    strikes(NINE N1 N3 N4, "r1", NINE N3 N4);
    shows(NINE N3 N4, "");
    refuses(NINE N1 N2 N3 N4, "r1", 15, 0);
    refuses(NINE N1 N2 N3 N4, "r3", 15, 0);
    /* no rule at all */
    shows("A x a\nP 0 p deny-overrides *\n", "");
    refuses("A x a\nP 0 p deny-overrides *\n", "p", 15, 0);
}

/* r2 does work while r1 is there: trimming strikes it, but not yet. */
static void later(void)
{
#define AGAIN "A x a b\nS 0 top first-applicable *\nP 1 p0 deny-overrides b\n"
#define AGAIN_REST "P 1 p1 first-applicable *\nR 2 r3 deny *\n"
    shows(AGAIN "R 2 r1 permit *\nR 2 r2 deny b\n" AGAIN_REST, "r1");
    refuses(AGAIN "R 2 r1 permit *\nR 2 r2 deny b\n" AGAIN_REST, "r2", 15, 0);
    strikes(AGAIN "R 2 r1 permit *\nR 2 r2 deny b\n" AGAIN_REST, "r1", AGAIN "R 2 r2 deny b\n" AGAIN_REST);
    shows(AGAIN "R 2 r2 deny b\n" AGAIN_REST, "r2");
    strikes(AGAIN "R 2 r2 deny b\n" AGAIN_REST, "r2", AGAIN AGAIN_REST);
    shows(AGAIN AGAIN_REST, "");
    refuses(AGAIN AGAIN_REST, "p0", 15, 0);
    refuses(AGAIN AGAIN_REST, "top", 15, 0);
    /* over sets: r1 and r2 are each needless, as the other and r3 match all that it does */
#define SETS "M x a b c\nP 0 p first-applicable *\n"
#define SETS_REST "R 1 r2 permit a\nR 1 r3 permit b,c\n"
    shows(SETS "R 1 r1 permit a,b\n" SETS_REST, "r2");
    strikes(SETS "R 1 r1 permit a,b\n" SETS_REST, "r1", SETS SETS_REST);
    refuses(SETS "R 1 r1 permit a,b\n" SETS_REST, "r3", 15, 0);
}

static void obligations(void)
{
#define BOTH(one, other) "A x a b\nS 0 top deny-overrides *\nP 1 p first-applicable *\n" one "R 2 r permit *\n" \
    "P 1 q first-applicable *\n" other
    /* s gives no decision of its own, but its policy's obligation */
    shows(BOTH("O log permit\n", "O slow permit\n") "R 2 s permit a\n", "");
    refuses(BOTH("O log permit\n", "O slow permit\n") "R 2 s permit a\n", "s", 15, 0);
    shows(BOTH("", "") "R 2 s permit a\n", "s");
    strikes(BOTH("", "") "R 2 s permit a\n", "s", BOTH("", ""));
    strikes(BOTH("O log permit\n", "O slow deny\n") "R 2 s permit a\n", "s", BOTH("O log permit\n", "O slow deny\n"));
    /* the names that come without it are other ones, the same, or the same but for case */
#define RIVALS(one, other, rule) "A x a b\nS 0 top first-applicable *\nP 1 p first-applicable *\nO " one " permit\n" rule \
    "P 1 q first-applicable *\nO " other " permit\nR 2 s permit *\n"
    shows(RIVALS("log", "log", "R 2 r permit a\n"), "r");
    strikes(RIVALS("log", "log", "R 2 r permit a\n"), "r", RIVALS("log", "log", ""));
    shows(RIVALS("log", "Log", "R 2 r permit a\n"), "");
    refuses(RIVALS("log", "Log", "R 2 r permit a\n"), "r", 15, 0);
    refuses(RIVALS("log", "lag", "R 2 r permit a\n"), "r", 15, 0);
    /* a rule directly behind obligations: their lines stay */
    strikes(TWINS "O log permit\nO slow deny\n" ONE OTHER, "One", TWINS "O log permit\nO slow deny\n" OTHER);
    refuses(TWINS "O log permit\nO slow deny\n" ONE OTHER, "log", 15, 0);
}

static void names(void)
{
    static const char *const others[] = {
        "", "p", "P", "x", "a", "On", "Onee", "ne", "One\t", "\tOne", "One\n", "One,other", "R\tOne", "R\t1\tOne", "*", "R",
        "\xcfne", "O\x0e" "e", "O.e", "permit", "One-of-17-bytes--",
    };
#define LONG "R 1 name-of-16-bytes permit a\n"

    for (size_t i = 0; i < sizeof others / sizeof *others; i++)
        refuses(TWINS ONE OTHER, others[i], 15, 0);
    strikes(TWINS ONE OTHER, "one", TWINS OTHER);
    strikes(TWINS ONE OTHER, "oNE", TWINS OTHER);
    strikes(TWINS ONE OTHER, "OTHER", TWINS ONE);
    shows(TWINS OTHER ONE, "One");
    shows(TWINS ONE LONG, "name-of-16-bytes");
    strikes(TWINS ONE LONG, "NAME-of-16-byteS", TWINS ONE);
    refuses(TWINS ONE LONG, "name-of-16-byte", 15, 0);
    refuses(TWINS ONE LONG, "name-of-16-bytess", 15, 0);
    /* bytes that differ as A from a do */
    refuses(TWINS ONE "R 1 r-0 permit a\n", "r\r0", 15, 0);
    refuses(TWINS ONE "R 1 r-0 permit a\n", "r-\x10", 15, 0);
}

/* Reading comes first, whatever the name. */
static void refusals(void)
{
    static const char *const given[] = {"r1", "R1", "nothing", "", "name-of-17-bytes-"};

    for (size_t i = 0; i < sizeof given / sizeof *given; i++) {
        refuses("", given[i], 9, 0);
        refuses("A x a b\n", given[i], 9, 0);
        refuses(NINE N1 "R 1 R1 permit a\n", given[i], 4, 4);
        refuses(NINE N1 "R 1 r5 permit a,b,c\n", given[i], 8, 4);
        refuses(NINE N1 "O log permit\n", given[i], 14, 4);
    }
    refuses_text("refused", ref_next_rule, NINE N1 N1, 100, 4, 4);
    refuses_text("refused", ref_next_rule, NINE N1 N1, 0, 4, 4);
    refuses_text("refused", ref_next_rule, "", 0, 9, 0);
}

void cases_of_rules(void)
{
    orders();
    later();
    obligations();
    names();
    refusals();
}
