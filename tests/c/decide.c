/* jogimaduve_decide on both sides of each edge. */
#include "check.h"

#define ONE "A\tx\ta\n"
#define BARE ONE "P\t0\ttop\tdeny-overrides\t*\n"
#define TWO "A\tx\ta\tb\nA\ty\tk\tl\n"
#define SIXTEEN "a\tb\tc\td\te\tf\tg\th\ti\tj\tk\tl\tm\tn\to\tp"
#define SETS                                                                                           \
    ONE "S\t0\ts0\tdeny-overrides\t*\nS\t1\ts1\tdeny-overrides\t*\nS\t2\ts2\tdeny-overrides\t*\n"      \
        "S\t3\ts3\tdeny-overrides\t*\nS\t4\ts4\tdeny-overrides\t*\nS\t5\ts5\tdeny-overrides\t*\n"      \
        "S\t6\ts6\tdeny-overrides\t*\n"
#define WORKED                                                                                         \
    "A\trole\ttech\tguest\nA\tact\tjog\tteach\nP\t0\tcell\tfirst-applicable\t*\t*\n"                   \
    "R\t1\tr1\tpermit\ttech\t*\nR\t1\tr2\tdeny\tguest\tteach\nR\t1\tr3\tdeny\t*\tteach\n"              \
    "R\t1\tr4\tpermit\ttech\tjog\n"
#define TORN "S\t1\ttorn\tonly-one-applicable\t*\nP\t2\tleft\tdeny-overrides\t*\nP\t2\tright\tdeny-overrides\t*\n"

#define REFUSES(file, number, second) DECIDES(file, "a", number, second)

static void decisions(void) {
    GIVES(WORKED, "tech\tjog", JOGIMADUVE_PERMIT);
    GIVES(WORKED, "tech\tteach", JOGIMADUVE_PERMIT);
    GIVES(WORKED, "guest\tjog", JOGIMADUVE_NOT_APPLICABLE);
    GIVES(WORKED, "guest\tteach", JOGIMADUVE_DENY);
    GIVES(ONE "S\t0\ttop\tonly-one-applicable\t*\nP\t1\tleft\tdeny-overrides\t*\nP\t1\tright\tdeny-overrides\t*\nR\t2\tr\tpermit\t*\n",
          "a", JOGIMADUVE_INDETERMINATE);
    GIVES(ONE "S\t0\ttop\tdeny-overrides\t*\n" TORN, "a", JOGIMADUVE_DENY);
    GIVES(ONE "S\t0\ttop\tpermit-overrides\t*\n" TORN "P\t1\tp\tdeny-overrides\t*\nR\t2\tr\tdeny\t*\n", "a", JOGIMADUVE_DENY);
    GIVES(ONE "S\t0\ttop\tfirst-applicable\t*\n" TORN "P\t1\tp\tdeny-overrides\t*\nR\t2\tr\tpermit\t*\n", "a", JOGIMADUVE_INDETERMINATE);
    GIVES(BARE, "a", JOGIMADUVE_NOT_APPLICABLE);
}

static void refusals(void) {
    /* 2 */
    REFUSES("\n", 2, 1);
    REFUSES(BARE "\n", 2, 3);
    REFUSES(ONE "P\t0\ttop\tdeny-overrides\t*", 2, 2);
    REFUSES("A\tx\n", 2, 1);
    REFUSES("AA\tx\ta\n", 2, 1);
    REFUSES("A\tx\ta\t\n", 2, 1);
    REFUSES(ONE "P\t0\ttop\tdeny-overrides\n", 2, 2);
    REFUSES(ONE "P\t0\ttop\tdeny-overrides\t*\t*\n", 2, 2);
    REFUSES("A\tx\ta\x1f\n", 2, 1);
    REFUSES("A\tx\ta~\n", 3, 1);
    REFUSES("A\tx\ta\x00\n", 2, 1);
    REFUSES("A\tx\ta\r\n", 2, 1);
    REFUSES("A\tx\ta\x7f\n", 2, 1);
    REFUSES("A\tx\ta\xff\n", 2, 1);
    /* 3 */
    GIVES("A\tx\ta234567890123456\nP\t0\ttop\tdeny-overrides\t*\n", "a234567890123456", JOGIMADUVE_NOT_APPLICABLE);
    REFUSES("A\tx\ta2345678901234567\n", 3, 1);
    REFUSES("A\tx\t-a\n", 3, 1);
    GIVES("A\tx\ta-\nP\t0\ttop\tdeny-overrides\t*\n", "a-", JOGIMADUVE_NOT_APPLICABLE);
    REFUSES(ONE "P\t0\tto_p\tdeny-overrides\t*\n", 3, 2);
    /* 4 */
    REFUSES(ONE "A\tx\tb\n", 4, 2);
    REFUSES("A\tx\ta\ta\n", 4, 1);
    REFUSES(BARE "R\t1\ttop\tpermit\t*\n", 4, 3);
    GIVES("A\tx\ta\nP\t0\tx\tdeny-overrides\t*\nR\t1\ta\tpermit\t*\n", "a", JOGIMADUVE_PERMIT);
    /* 5 */
    GIVES("A\tx\t" SIXTEEN "\nP\t0\ttop\tdeny-overrides\t*\n", "p", JOGIMADUVE_NOT_APPLICABLE);
    REFUSES("A\tx\t" SIXTEEN "\tq\n", 5, 1);
    GIVES("A\tx\t" SIXTEEN "\nA\ty\t" SIXTEEN "\nA\tz\t" SIXTEEN "\nA\tw\ta\nP\t0\ttop\tdeny-overrides\t*\t*\t*\t*\n", "a\tb\tc\ta", JOGIMADUVE_NOT_APPLICABLE);
    REFUSES("A\tx\t" SIXTEEN "\nA\ty\t" SIXTEEN "\nA\tz\t" SIXTEEN "\nA\tw\ta\tb\n", 5, 4);
    REFUSES("A\tt\ta\nA\tu\ta\nA\tv\ta\nA\tw\ta\nA\tx\ta\nA\ty\ta\nA\tz\ta\n", 5, 7);
    /* 6 */
    GIVES(SETS "P\t7\ttop\tdeny-overrides\t*\n", "a", JOGIMADUVE_NOT_APPLICABLE);
    REFUSES(SETS "P\t8\ttop\tdeny-overrides\t*\n", 6, 9);
    REFUSES(SETS "P\t07\ttop\tdeny-overrides\t*\n", 6, 9);
    REFUSES(BARE "A\ty\ta\n", 6, 3);
    REFUSES("P\t0\ttop\tdeny-overrides\n", 6, 1);
    REFUSES(ONE "R\t0\tr\tpermit\t*\n", 6, 2);
    REFUSES(ONE "P\t1\tp\tdeny-overrides\t*\n", 6, 2);
    REFUSES(BARE "P\t0\tp\tdeny-overrides\t*\n", 6, 3);
    REFUSES(BARE "R\t2\tr\tpermit\t*\n", 6, 3);
    REFUSES(BARE "P\t1\tp\tdeny-overrides\t*\n", 6, 3);
    REFUSES(ONE "S\t0\ttop\tdeny-overrides\t*\nR\t1\tr\tpermit\t*\n", 6, 3);
    /* 7 */
    GIVES(ONE "S\t0\ttop\tonly-one-applicable\t*\n", "a", JOGIMADUVE_NOT_APPLICABLE);
    REFUSES(ONE "P\t0\ttop\tonly-one-applicable\t*\n", 7, 2);
    REFUSES(ONE "P\t0\ttop\tpermit\t*\n", 7, 2);
    REFUSES(BARE "R\t1\tr\tdeny-overrides\t*\n", 7, 3);
    REFUSES(BARE "R\t1\tr\tPermit\t*\n", 7, 3);
    /* 8 */
    GIVES("A\tx\ta\tb\nP\t0\ttop\tdeny-overrides\ta\n", "a", JOGIMADUVE_NOT_APPLICABLE);
    REFUSES("A\tx\ta\tb\nP\t0\ttop\tdeny-overrides\ta,b\n", 8, 2);
    REFUSES("A\tx\ta\tb\tc\nP\t0\ttop\tdeny-overrides\tb,a\n", 8, 2);
    REFUSES("A\tx\ta\tb\tc\nP\t0\ttop\tdeny-overrides\ta,a\n", 8, 2);
    REFUSES("A\tx\ta\tb\tc\nP\t0\ttop\tdeny-overrides\ta,\n", 8, 2);
    REFUSES("A\tx\ta\tb\tc\nP\t0\ttop\tdeny-overrides\td\n", 8, 2);
    REFUSES(ONE "P\t0\ttop\tdeny-overrides\ta\n", 8, 2);
    /* 9 */
    REFUSES("", 9, 0);
    REFUSES(ONE, 9, 0);
    /* the lowest number on the first bad line */
    REFUSES(ONE "R\t9\t-\tno\tz\n", 3, 2);
    REFUSES(ONE "P\t0\ttop\tno\t*\n\n", 7, 2);
}

static void request_lines(void) {
    DECIDES(BARE, "", 10, 1);
    DECIDES(BARE, "b", 10, 1);
    DECIDES(BARE, "a\n", 10, 1);
    DECIDES(BARE, "a\t", 10, 0);
    DECIDES(TWO "P\t0\ttop\tdeny-overrides\t*\t*\n", "a", 10, 0);
    DECIDES(TWO "P\t0\ttop\tdeny-overrides\t*\t*\n", "\t", 10, 1);
    DECIDES(TWO "P\t0\ttop\tdeny-overrides\t*\t*\n", "a\tz", 10, 2);
    DECIDES(TWO "P\t0\ttop\tdeny-overrides\t*\t*\n", "k\tl", 10, 1);
    GIVES(TWO "P\t0\ttop\tdeny-overrides\t*\t*\n", "b\tl", JOGIMADUVE_NOT_APPLICABLE);
    DECIDES(ONE, "nothing", 9, 0);
}

/* A file of 64 or 65 elements, and one of 16,384 or 16,385 bytes. */
static void sizes(void) {
    static uint8_t file[20000];
    size_t length = 0;
    length += (size_t)sprintf((char *)file, BARE);
    for (int i = 1; i < 64; i++) {
        length += (size_t)sprintf((char *)file + length, "R\t1\tr%d\tpermit\t*\n", i);
    }
    answers(bare_decision(file, length, TEXT("a")), 0, JOGIMADUVE_PERMIT, "64 elements", __LINE__);
    size_t more = (size_t)sprintf((char *)file + length, "R\t1\tr64\tpermit\t*\n");
    answers(bare_decision(file, length + more, TEXT("a")), 5, 66, "65 elements", __LINE__);
    memset(file, '\n', sizeof file);
    answers(bare_decision(file, 16384, TEXT("a")), 2, 1, "16,384 bytes", __LINE__);
    answers(bare_decision(file, 16385, TEXT("a")), 1, 0, "16,385 bytes", __LINE__);
}

int main(void) {
    decisions();
    refusals();
    request_lines();
    sizes();
    return checks_done();
}
