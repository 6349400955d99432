/* jogimaduve_accept, request by request and rule by rule: the first request that gets another decision or other obligations,
 * and the topmost rule that does no work in the proposal, whatever it does in the original. */
#include "judge.h"
#include "small.h"

/* r2 does work while r1 is there */
#define AGAIN_TOP AB "S\t0\ttop\tfirst-applicable\t*\nP\t1\tp0\tdeny-overrides\tb\n"
#define AGAIN_1 "R\t2\tr1\tpermit\t*\n"
#define AGAIN_2 "R\t2\tr2\tdeny\tb\n"
#define AGAIN_REST "P\t1\tp1\tfirst-applicable\t*\nR\t2\tr3\tdeny\t*\n"
/* s gives the same as r does, but its policy has an obligation of its own */
#define BOTH(log, slow, rules) \
    AB "S\t0\ttop\tdeny-overrides\t*\nP\t1\tp\tfirst-applicable\t*\n" log "R\t2\tr\tpermit\t*\nP\t1\tq\tfirst-applicable\t*\n" slow rules
#define ON(value) "R\t2\ts\tpermit\t" value "\n"
/* p's rule, and what is behind p */
#define FIRST(obligation, rule, rest) AB "S\t0\ttop\tfirst-applicable\t*\nP\t1\tp\tfirst-applicable\t*\n" obligation rule rest
#define PERMIT(value) "R\t2\tr\tpermit\t" value "\n"
#define DENY(value) "R\t2\tr\tdeny\t" value "\n"
#define LOG(word) "O\tlog\t" word "\n"
#define THEN(obligations, effect) "P\t1\tq\tfirst-applicable\t*\n" obligations "R\t2\ts\t" effect "\t*\n"
#define UNCLEAR "S\t1\tq\tonly-one-applicable\t*\nP\t2\tone\tdeny-overrides\t*\nP\t2\ttwo\tdeny-overrides\t*\n"
#define SIXTEEN "a\tb\tc\td\te\tf\tg\th\ti\tj\tk\tl\tm\tn\to\tp\n"
#define CUBE "A\tx\t" SIXTEEN "A\ty\t" SIXTEEN "A\tz\t" SIXTEEN "P\t0\ttop\tfirst-applicable\t*\t*\t*\n"
#define AT(x, y, z) "R\t1\tr\tdeny\t" x "\t" y "\t" z "\n"
#define REST "R\t1\trest\tpermit\t*\t*\t*\n"
#define BADGE "M\tRole\tTech\tguest\tLead\nA\tact\tJog\tteach\nP\t0\tCell\tfirst-applicable\t*\t*\n"

#define DIFFERS(original, proposal, request) JUDGES(original, proposal, 17, request)
#define NEEDLESS(original, proposal, line) JUDGES(original, proposal, 18, line)

/* Which request is told: the lowest, by the number that it has. */
static void requests(void) {
    DIFFERS(HEAD H1 H2, HEAD H1, 3);
    DIFFERS(HEAD H1 H2, HEAD H2, 0);
    DIFFERS(HEAD H1 H2, HEAD, 0);
    DIFFERS(HEAD "R\t1\tr\tpermit\tguest\t*\n", HEAD, 2);
    DIFFERS(HEAD "R\t1\tr\tpermit\t*\tteach\n", HEAD, 1);
    DIFFERS(HEAD H1 H3, HEAD H3, 0);
    DIFFERS(HEAD H1 H3, HEAD H1, 3);
    /* 4,096 requests, of which one differs, or the first and the last */
    DIFFERS(CUBE AT("a", "a", "a") REST, CUBE REST, 0);
    DIFFERS(CUBE AT("a", "a", "b") REST, CUBE REST, 1);
    DIFFERS(CUBE AT("a", "d", "p") REST, CUBE REST, 63);
    DIFFERS(CUBE AT("a", "e", "a") REST, CUBE REST, 64);
    DIFFERS(CUBE AT("a", "p", "p") REST, CUBE REST, 255);
    DIFFERS(CUBE AT("b", "a", "a") REST, CUBE REST, 256);
    DIFFERS(CUBE AT("p", "p", "o") REST, CUBE REST, 4094);
    DIFFERS(CUBE AT("p", "p", "p") REST, CUBE REST, 4095);
    DIFFERS(CUBE AT("a,p", "a,p", "a,p") REST, CUBE REST, 0);
    DIFFERS(CUBE AT("b,p", "c,p", "d,p") REST, CUBE REST, 291);
    ACCEPTS(CUBE AT("p", "p", "p") REST, CUBE AT("p", "p", "p") REST);
    ACCEPTS(CUBE AT("a", "e", "a") REST, CUBE AT("a", "e", "a") REST);
    ACCEPTS(CUBE REST AT("p", "p", "p"), CUBE REST);
    NEEDLESS(CUBE REST AT("p", "p", "p"), CUBE REST AT("p", "p", "p"), 6);
    /* sets of values: tech is 0, guest 1, both 2, lead 3 */
    DIFFERS(BADGE "R\t1\tr\tdeny\tguest\tteach\n", BADGE, 3);
    DIFFERS(BADGE "R\t1\tr\tdeny\tLead\tJog\n", BADGE, 6);
    DIFFERS(BADGE "R\t1\tr\tdeny\tLead\t*\nR\t1\ts\tpermit\tguest\t*\n", BADGE "R\t1\ts\tpermit\tguest\t*\n", 6);
    DIFFERS(BADGE "R\t1\tr\tdeny\tguest\t*\nR\t1\ts\tpermit\tguest,Lead\t*\n", BADGE "R\t1\ts\tpermit\tguest,Lead\t*\n", 2);
    DIFFERS("A\ty\tc\td\nM\tx\ta\tb\nP\t0\ttop\tdeny-overrides\t*\t*\nR\t1\tr\tpermit\td\tb\n",
            "A\ty\tc\td\nM\tx\ta\tb\nP\t0\ttop\tdeny-overrides\t*\t*\n", 4);
}

/* Each decision that can become another when rules are left out. */
static void decisions(void) {
    DIFFERS(FIRST("", PERMIT("b"), THEN("", "deny")), FIRST("", "", THEN("", "deny")), 1);
    DIFFERS(FIRST("", PERMIT("a"), THEN("", "permit")), FIRST("", PERMIT("a"), "P\t1\tq\tfirst-applicable\t*\n"), 1);
    DIFFERS(FIRST("", PERMIT("b"), UNCLEAR), FIRST("", "", UNCLEAR), 1);
    DIFFERS(FIRST("", DENY("b"), THEN("", "permit")), FIRST("", "", THEN("", "permit")), 1);
    DIFFERS(FIRST("", DENY("a"), THEN("", "deny")), FIRST("", DENY("a"), "P\t1\tq\tfirst-applicable\t*\n"), 1);
    DIFFERS(FIRST("", DENY("b"), UNCLEAR), FIRST("", "", UNCLEAR), 1);
    /* alike, with nothing but not-applicable or indeterminate */
    ACCEPTS(FIRST("", "", UNCLEAR), FIRST("", "", UNCLEAR));
    ACCEPTS(FIRST("", "", UNCLEAR "R\t3\tt\tpermit\t*\n"), FIRST("", "", UNCLEAR));
    NEEDLESS(FIRST("", "", UNCLEAR "R\t3\tt\tpermit\t*\n"), FIRST("", "", UNCLEAR "R\t3\tt\tpermit\t*\n"), 7);
    /* another decision with the same obligations */
    DIFFERS(FIRST(LOG("permit"), PERMIT("a"), THEN(LOG("deny"), "deny")), FIRST(LOG("permit"), "", THEN(LOG("deny"), "deny")), 0);
    DIFFERS(FIRST(LOG("deny"), DENY("b"), THEN(LOG("permit"), "permit")), FIRST(LOG("deny"), "", THEN(LOG("permit"), "permit")), 1);
}

/* Below `top`, a set for each order of two obligations. */
#define ORDERS(rules) \
    AB "S\t0\ttop\tfirst-applicable\t*\nS\t1\tone\tdeny-overrides\t*\nP\t2\tp1\tdeny-overrides\t*\nO\tlog\tpermit\n" rules("1") \
    "P\t2\tp2\tdeny-overrides\t*\nO\tstop\tpermit\n" rules("2") "S\t1\ttwo\tdeny-overrides\t*\nP\t2\tp3\tdeny-overrides\t*\nO\tstop\tpermit\n" \
    "R\t3\tr3\tpermit\t*\nP\t2\tp4\tdeny-overrides\t*\nO\tlog\tpermit\nR\t3\tr4\tpermit\t*\n"
#define ASKED(n) "R\t3\tr" n "\tpermit\tb\n"
#define NONE(n) ""

static void obligations(void) {
    ACCEPTS(BOTH(LOG("permit"), "O\tslow\tpermit\n", ON("b")), BOTH(LOG("permit"), "O\tslow\tpermit\n", ON("b")));
    DIFFERS(BOTH(LOG("permit"), "O\tslow\tpermit\n", ON("a")), BOTH(LOG("permit"), "O\tslow\tpermit\n", ""), 0);
    DIFFERS(BOTH(LOG("permit"), "O\tslow\tpermit\n", ON("b")), BOTH(LOG("permit"), "O\tslow\tpermit\n", ""), 1);
    ACCEPTS(BOTH(LOG("permit"), "O\tslow\tdeny\n", ON("b")), BOTH(LOG("permit"), "O\tslow\tdeny\n", ""));
    ACCEPTS(BOTH(LOG("permit"), "", ON("b")), BOTH(LOG("permit"), "", ""));
    NEEDLESS(BOTH(LOG("permit"), "O\tslow\tdeny\n", ON("b")), BOTH(LOG("permit"), "O\tslow\tdeny\n", ON("b")), 8);
    NEEDLESS(BOTH("", "", ON("b")), BOTH("", "", ON("b")), 6);
    /* the same bytes from another policy, others of the same length, others by letter case, one less, one more */
    ACCEPTS(FIRST(LOG("permit"), PERMIT("b"), THEN(LOG("permit"), "permit")), FIRST(LOG("permit"), "", THEN(LOG("permit"), "permit")));
    DIFFERS(FIRST(LOG("permit"), PERMIT("b"), THEN("O\tlag\tpermit\n", "permit")), FIRST(LOG("permit"), "", THEN("O\tlag\tpermit\n", "permit")), 1);
    DIFFERS(FIRST(LOG("permit"), PERMIT("b"), THEN("O\tLog\tpermit\n", "permit")), FIRST(LOG("permit"), "", THEN("O\tLog\tpermit\n", "permit")), 1);
    DIFFERS(FIRST(LOG("permit"), PERMIT("b"), THEN("", "permit")), FIRST(LOG("permit"), "", THEN("", "permit")), 1);
    DIFFERS(FIRST("", PERMIT("b"), THEN(LOG("permit"), "permit")), FIRST("", "", THEN(LOG("permit"), "permit")), 1);
    DIFFERS(FIRST(LOG("permit"), PERMIT("b"), THEN(LOG("permit") "O\tslow\tpermit\n", "permit")),
            FIRST(LOG("permit"), "", THEN(LOG("permit") "O\tslow\tpermit\n", "permit")), 1);
    DIFFERS(FIRST(LOG("permit") "O\tslow\tpermit\n", PERMIT("b"), THEN(LOG("permit"), "permit")),
            FIRST(LOG("permit") "O\tslow\tpermit\n", "", THEN(LOG("permit"), "permit")), 1);
    DIFFERS(FIRST("O\tstop\tpermit\n" LOG("permit"), PERMIT("b"), THEN(LOG("permit") "O\tstop\tpermit\n", "permit")),
            FIRST("O\tstop\tpermit\n" LOG("permit"), "", THEN(LOG("permit") "O\tstop\tpermit\n", "permit")), 1);
    DIFFERS(ORDERS(ASKED), ORDERS(NONE), 1);
    /* with deny, too */
    ACCEPTS(FIRST(LOG("deny"), DENY("a"), THEN(LOG("deny"), "deny")), FIRST(LOG("deny"), "", THEN(LOG("deny"), "deny")));
    DIFFERS(FIRST(LOG("deny"), DENY("a"), THEN("O\tlag\tdeny\n", "deny")), FIRST(LOG("deny"), "", THEN("O\tlag\tdeny\n", "deny")), 0);
    DIFFERS(FIRST(LOG("deny"), DENY("b"), THEN("", "deny")), FIRST(LOG("deny"), "", THEN("", "deny")), 1);
    ACCEPTS(FIRST(LOG("permit"), DENY("b"), THEN("", "deny")), FIRST(LOG("permit"), "", THEN("", "deny")));
    /* obligations differ first, then a decision; and the other way round */
    DIFFERS(FIRST(LOG("permit"), PERMIT("a") "R\t2\tt\tdeny\tb\n", THEN("", "permit")), FIRST(LOG("permit"), "", THEN("", "permit")), 0);
    DIFFERS(FIRST(LOG("permit"), DENY("a") "R\t2\tt\tpermit\tb\n", THEN("", "permit")), FIRST(LOG("permit"), "", THEN("", "permit")), 0);
    DIFFERS(FIRST(LOG("permit"), DENY("a") "R\t2\tt\tpermit\tb\n", THEN("", "permit")), FIRST(LOG("permit"), DENY("a"), THEN("", "permit")), 1);
}

/* Which rule is told: the topmost, by its line in the proposal. */
static void needless(void) {
    NEEDLESS(HEAD H1 H2 H3 H4, HEAD H1 H2 H3 H4, 5);
    NEEDLESS(HEAD H1 H2 H3 H4, HEAD H1 H3 H4, 6);
    NEEDLESS(HEAD H1 H2 H3 H4, HEAD H1 H2 H4, 6);
    NEEDLESS(HEAD H1 H2 H3 H4, HEAD H1 H2 H3, 5);
    NEEDLESS(HEAD H4 H1 H2, HEAD H4 H1 H2, 4);
    NEEDLESS(TOP ONE TWIN, TOP ONE TWIN, 3);
    NEEDLESS(TOP ONE TWIN "R\t1\tmore\tpermit\ta\n", TOP ONE TWIN, 3);
    NEEDLESS(TOP ONE TWIN "R\t1\tmore\tpermit\ta\n", TOP TWIN "R\t1\tmore\tpermit\ta\n", 3);
    NEEDLESS(ABC N1 N2 N3 N4, ABC N1 N2 N3 N4, 4);
    NEEDLESS(ABC N1 N2 N3 N4, ABC N1 N3 N4, 3);
    /* while r1 is there, r1 alone; then r2, which stands lower in the original */
    NEEDLESS(AGAIN_TOP AGAIN_1 AGAIN_2 AGAIN_REST, AGAIN_TOP AGAIN_1 AGAIN_2 AGAIN_REST, 4);
    NEEDLESS(AGAIN_TOP AGAIN_1 AGAIN_2 AGAIN_REST, AGAIN_TOP AGAIN_2 AGAIN_REST, 4);
    DIFFERS(AGAIN_TOP AGAIN_1 AGAIN_2 AGAIN_REST, AGAIN_TOP AGAIN_1 AGAIN_REST, 1);
    ACCEPTS(AGAIN_TOP AGAIN_1 AGAIN_2 AGAIN_REST, AGAIN_TOP AGAIN_REST);
    /* below a policy, a set and obligations, which have lines too */
    NEEDLESS(FIRST(LOG("permit") "O\tslow\tdeny\n", "", THEN(LOG("permit"), "permit") "R\t2\tt\tpermit\ta\n"),
             FIRST(LOG("permit") "O\tslow\tdeny\n", "", THEN(LOG("permit"), "permit") "R\t2\tt\tpermit\ta\n"), 9);
    NEEDLESS(FIRST(LOG("permit"), PERMIT("a"), THEN(LOG("permit"), "permit")), FIRST(LOG("permit"), PERMIT("a"), THEN(LOG("permit"), "permit")), 5);
    /* a badge with both roles needs r1 */
    ACCEPTS("M\tx\ta\tb\tc\nP\t0\ttop\tfirst-applicable\t*\n" N1 N4 N3, "M\tx\ta\tb\tc\nP\t0\ttop\tfirst-applicable\t*\n" N1 N4 N3);
    NEEDLESS(ABC N1 N4 N3, ABC N1 N4 N3, 3);
    /* what trimming leaves, and other texts that are as sound */
    ACCEPTS(HEAD H1 H2 H3 H4, HEAD H1 H2);
    ACCEPTS(HEAD H1 H2 H3 H4, HEAD H1 H3);
    ACCEPTS(TOP ONE TWIN, TOP TWIN);
    ACCEPTS(ABC N1 N2 N3 N4, ABC N1 N2 N3);
    ACCEPTS(ABC N1 N2 N3 N4, ABC N3 N4);
    /* a request that differs is told before a rule that does no work */
    DIFFERS(HEAD H1 H2 H3 H4, HEAD H1 H4, 3);
    DIFFERS(HEAD H1 H2 H3 H4, HEAD H2 H3, 0);
    DIFFERS(ABC N1 N2 N3 N4, ABC N1 N2 N4, 2);
    DIFFERS(TOP ONE TWIN "R\t1\tend\tdeny\tb\n", TOP ONE TWIN, 1);
}

int main(void) {
    requests();
    decisions();
    obligations();
    needless();
    return checks_done();
}
