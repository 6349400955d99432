/* C-14, worked out by hand: where two values of an M get another decision than one of them alone. The sets of a, b, c and d
 * are numbered a 0, b 1, a and b 2, c 3, a and c 4, b and c 5, all three 6, d 7, a and d 8, b and d 9, c and d 11. */
#include "cases.h"

#include <string.h>

static struct slice attribute; /* the one that `pairs` is asked for */

static struct answer pairs(const uint8_t *file, size_t length, uint8_t *out, size_t room)
{
    return ref_pairs(file, length, attribute.bytes, attribute.length, out, room);
}

static void lists(const char *policy, const char *name, const char *text)
{
    attribute = (struct slice){(const uint8_t *)name, strlen(name)};
    gives_text(policy, pairs, policy, text);
}

/* In a buffer of any length, also of 0. */
static void refuses(const char *policy, const char *name, uint32_t number, uint32_t second)
{
    attribute = (struct slice){(const uint8_t *)name, strlen(name)};
    refuses_text(name, pairs, policy, 100, number, second);
    refuses_text(name, pairs, policy, 0, number, second);
}

#define BADGE "M Role Tech guest aud\nP 0 Cell deny-overrides *\nR 1 r1 permit Tech\nR 1 r2 deny guest,aud\n"
#define TOP "P 0 top first-applicable *\n"
#define ALLOWED "S 0 top deny-overrides *\nP 1 allowed first-applicable *\nR 2 may permit *\n"

static void decisions(void)
{
    lists(BADGE, "ROLE", "D 2 deny permit deny\nD 4 deny permit deny\n");
    /* each of the two alone, the other the same; then both alone */
    lists("M x a b\n" TOP "R 1 r permit a\n", "x", "D 2 permit permit not-applicable\n");
    lists("M x a b\n" TOP "R 1 r permit b\n", "x", "D 2 permit not-applicable permit\n");
    lists("M x a b\n" TOP "R 1 r permit *\n", "x", "");
    lists("M x a b\nP 0 top deny-overrides a\nR 1 r permit b\n", "x", "D 2 permit not-applicable not-applicable\n");
    lists("M x a b\n" ALLOWED "P 1 no deny-overrides a\nR 2 r deny b\n", "x", "D 2 deny permit permit\n");
    lists("M x a b\nP 0 top first-applicable *\nR 1 r1 permit a\nR 1 r2 deny b\n", "x", "D 2 permit permit deny\n");
    lists("M x a b c\nS 0 top only-one-applicable *\nP 1 p first-applicable a\nR 2 r permit *\nP 1 q first-applicable b\n"
          "R 2 s permit *\n", "x", "D 2 indeterminate permit permit\nD 4 permit permit not-applicable\n"
          "D 5 permit permit not-applicable\n");
    /* all three get what no two of them get, and no one */
    lists("M x a b c\nS 0 top permit-overrides a\nS 1 s permit-overrides b\nP 2 p permit-overrides c\nR 3 r permit *\n", "x",
          "");
}

/* Over the choices of the other attributes, in one rising order. */
static void numbers(void)
{
    lists("M x a b c d\n" TOP "R 1 r deny a,b\n", "x", "D 4 deny deny not-applicable\nD 5 deny deny not-applicable\n"
          "D 8 deny deny not-applicable\nD 9 deny deny not-applicable\n");
    /* a and b are 2 and come before or behind the others: 2 * 2 and 2 * 2 + 1, or 2 and 3 + 2 */
    lists("M x a b\nA y c d\nP 0 top deny-overrides * *\nR 1 r deny a *\n", "x",
          "D 4 deny deny not-applicable\nD 5 deny deny not-applicable\n");
    lists("A y c d\nM x a b\nP 0 top deny-overrides * *\nR 1 r deny * a\n", "x",
          "D 2 deny deny not-applicable\nD 5 deny deny not-applicable\n");
    /* b, c and d, f: 1 * 6 + 2 * 2 + 1 */
    lists("A x a b\nM y c d\nA z e f\nP 0 top first-applicable * * *\nR 1 r permit b d f\n", "y",
          "D 11 permit not-applicable permit\n");
    /* the pair a, b with c and with c and d: 2 * 3 and 2 * 3 + 2; the pair c, d with a and with a and b: 2 and 2 * 3 + 2 */
#define TWO_SETS "M x a b\nM y c d\nP 0 top first-applicable * *\nR 1 r permit a c\n"
    lists(TWO_SETS, "x", "D 6 permit permit not-applicable\nD 8 permit permit not-applicable\n");
    lists(TWO_SETS, "Y", "D 2 permit permit not-applicable\nD 8 permit permit not-applicable\n");
    lists("M x a\n" TOP "R 1 r permit *\n", "x", "");
    lists("M x a\nM y b c\n" "P 0 top deny-overrides * *\nR 1 r permit * c\n", "x", "");
    lists("M x a\nM y b c\n" "P 0 top deny-overrides * *\nR 1 r permit * c\n", "y", "D 2 permit not-applicable permit\n");
    /* with l: 2^11 + 2^v - 1 */
    lists("M x a b c d e f g h i j k l\n" TOP "R 1 r permit l\n", "x",
          "D 2048 permit not-applicable permit\nD 2049 permit not-applicable permit\nD 2051 permit not-applicable permit\n"
          "D 2055 permit not-applicable permit\nD 2063 permit not-applicable permit\nD 2079 permit not-applicable permit\n"
          "D 2111 permit not-applicable permit\nD 2175 permit not-applicable permit\nD 2303 permit not-applicable permit\n"
          "D 2559 permit not-applicable permit\nD 3071 permit not-applicable permit\n");
}

static void names(void)
{
    static const char *const others[] = {
        "", "act", "ACT", "cell", "r1", "Tech", "jog", "Rol", "Rolee", "R\xefle", "Role\t", "\tRole", "Role\n", "Role,act",
        "M\tRole", "*", "Role-of-17-bytes-",
    };
#define TWO "M Role Tech guest\nA act jog teach\nP 0 cell first-applicable * *\nR 1 r1 permit Tech *\n"
    for (size_t i = 0; i < sizeof others / sizeof *others; i++)
        refuses(TWO, others[i], 13, 0);
    lists(TWO, "rOLE", "D 4 permit permit not-applicable\nD 5 permit permit not-applicable\n");
    lists("M name-of-16-bytes a b\n" TOP "R 1 r permit a\n", "NAME-OF-16-BYTEs", "D 2 permit permit not-applicable\n");
    /* reading comes first, whatever the name */
    refuses("M x a b\nM X a\n" TOP, "y", 4, 2);
    refuses("M x a b\nM X a\n" TOP, "x", 4, 2);
    refuses("M x a b\n", "", 9, 0);
    refuses("", "x", 9, 0);
}

void cases_of_pairs(void)
{
    decisions();
    numbers();
    names();
}
