/* The header's names: each refusal and decision has the paper's number, shown by an input that gets it. */
#include "check.h"
#include "large.h"

#define A "A\tx\ta\tb\n"
#define P "P\t0\ttop\tfirst-applicable\t*\n"
#define GOOD A P "R\t1\tr1\tpermit\ta\nR\t1\tr2\tdeny\tb\n"
#define SETS "M\tx\ta\tb\n" P "R\t1\tr1\tpermit\ta\n"

static uint8_t buffer[JOGIMADUVE_REPORT_BUFFER];
static uint8_t long_file[JOGIMADUVE_LONGEST_FILE + 1];

#define REFUSED(file, number, second) answers(jogimaduve_trim(TEXT(file), buffer, sizeof buffer), number, second, file, __LINE__)
#define DECIDED(file, request, decision) answers(bare_decision(TEXT(file), TEXT(request)), JOGIMADUVE_DONE, decision, request, __LINE__)

/* The longest request that can be good: 17 names of 16 bytes, twelve of them a set's, and a byte more. */
static void longest_request(void) {
    static char file[512], request[512];
    size_t size = (size_t)sprintf(file, "M\ta"), length = 0;
    for (int i = 0; i < 12; i++) {
        size += (size_t)sprintf(file + size, "\t0123456789abcde%c", 'a' + i);
        length += (size_t)sprintf(request + length, "%s0123456789abcde%c", i == 0 ? "" : ",", 'a' + i);
    }
    size += (size_t)sprintf(file + size, "\n");
    for (int i = 1; i < 6; i++) {
        size += (size_t)sprintf(file + size, "A\t%c\t0123456789abcdef\n", 'a' + i);
        length += (size_t)sprintf(request + length, "\t0123456789abcdef");
    }
    size += (size_t)sprintf(file + size, "P\t0\ttop\tdeny-overrides\t*\t*\t*\t*\t*\t*\n");
    check(length == JOGIMADUVE_LONGEST_REQUEST, "the longest request", __LINE__);
    answers(bare_decision((const uint8_t *)file, size, (const uint8_t *)request, length), JOGIMADUVE_DONE, JOGIMADUVE_NOT_APPLICABLE, "the longest request", __LINE__);
    request[length] = 'x';
    answers(bare_decision((const uint8_t *)file, size, (const uint8_t *)request, length + 1), JOGIMADUVE_BAD_REQUEST, 6, "a byte more", __LINE__);
}

/* The most obligations that can come with a decision, and a byte less room than they need. */
static void longest_obligations(void) {
    static char file[JOGIMADUVE_LONGEST_FILE];
    static uint8_t text[JOGIMADUVE_LONGEST_OBLIGATIONS];
    size_t size = most_obliged(file);
    jogimaduve_decision got = jogimaduve_decide((const uint8_t *)file, size, TEXT("a"), text, sizeof text);
    check(got.number == JOGIMADUVE_DONE && got.second == JOGIMADUVE_PERMIT && got.length == JOGIMADUVE_LONGEST_OBLIGATIONS, "the most obligations", __LINE__);
    check(memcmp(text, "0123456789abcdef\nfedcba9876543210\n", 34) == 0 && memcmp(text, text + 34, sizeof text - 34) == 0, "the most obligations", __LINE__);
    got = jogimaduve_decide((const uint8_t *)file, size, TEXT("a"), text, sizeof text - 1);
    check(got.number == JOGIMADUVE_SHORT_BUFFER && got.second == JOGIMADUVE_LONGEST_OBLIGATIONS && got.length == 0, "a byte less", __LINE__);
}

/* The longest name, which is that of a rule to strike, and a byte more. */
static void longest_name(void) {
    static const char file[] = GOOD "R\t1\t0123456789abcdef\tpermit\ta\n";
    uint8_t name[JOGIMADUVE_LONGEST_NAME];
    answers(jogimaduve_next_rule(TEXT(file), name, sizeof name), JOGIMADUVE_DONE, JOGIMADUVE_LONGEST_NAME, "the longest name", __LINE__);
    check(memcmp(name, "0123456789abcdef", sizeof name) == 0, "the longest name", __LINE__);
    answers(jogimaduve_next_rule(TEXT(file), name, sizeof name - 1), JOGIMADUVE_SHORT_BUFFER, JOGIMADUVE_LONGEST_NAME, "a byte less", __LINE__);
    answers(jogimaduve_strike(TEXT(file), name, sizeof name, buffer, 0), JOGIMADUVE_SHORT_BUFFER, sizeof GOOD - 1, "no buffer", __LINE__);
    answers(jogimaduve_strike(TEXT(file), name, sizeof name, buffer, sizeof GOOD - 1), JOGIMADUVE_DONE, sizeof GOOD - 1, "the bytes needed", __LINE__);
    REFUSED(GOOD "R\t1\t0123456789abcdefg\tpermit\ta\n", JOGIMADUVE_BAD_NAME, 5);
}

/* A step answers by the same names, with a third number. */
static void steps(void) {
    static uint8_t text[] = GOOD "R\t1\tr3\tpermit\ta\n";
    jogimaduve_stepped got = jogimaduve_step(text, sizeof text - 1);
    check(got.number == JOGIMADUVE_DONE && got.second == sizeof GOOD - 1 && got.struck == 1, "a rule struck", __LINE__);
    got = jogimaduve_step(text, got.second);
    check(got.number == JOGIMADUVE_DONE && got.second == sizeof GOOD - 1 && got.struck == 0, "none left", __LINE__);
    got = jogimaduve_step(text, got.second - 1);
    check(got.number == JOGIMADUVE_BAD_LINE && got.second == 4 && got.struck == 0, "no last newline", __LINE__);
    got = jogimaduve_step(long_file, sizeof long_file);
    check(got.number == JOGIMADUVE_TOO_LONG && got.second == 0 && got.struck == 0, "too long", __LINE__);
    got = jogimaduve_step(long_file, sizeof long_file - 1);
    check(got.number == JOGIMADUVE_BAD_LINE && got.second == 1 && got.struck == 0, "as long as can be", __LINE__);
    /* what every caller is compiled with */
    check(sizeof got == 12 && offsetof(jogimaduve_stepped, second) == 4 && offsetof(jogimaduve_stepped, struck) == 8, "the answer of a step", __LINE__);
}

#define ACCEPTED(original, proposal, number, second) answers(jogimaduve_accept(TEXT(original), TEXT(proposal)), number, second, proposal, __LINE__)

/* Which file a refusal means is told by the original alone, in no buffer. */
static void proposals(void) {
    ACCEPTED(GOOD "R\t1\tr3\tpermit\ta\n", GOOD, JOGIMADUVE_DONE, 0);
    ACCEPTED(GOOD, GOOD "R\t1\tr3\tpermit\ta\n", JOGIMADUVE_OTHER_LINE, 5);
    ACCEPTED(A P "O\tlog\tpermit\n", A P, JOGIMADUVE_OTHER_LINE, 0);
    ACCEPTED(GOOD, A P "R\t1\tr1\tpermit\ta\n", JOGIMADUVE_OTHER_OUTCOME, 1);
    ACCEPTED(GOOD "R\t1\tr3\tpermit\ta\n", GOOD "R\t1\tr3\tpermit\ta\n", JOGIMADUVE_NEEDLESS_RULE, 3);
    ACCEPTED(A, A P A, JOGIMADUVE_NO_ELEMENT, 0);
    answers(jogimaduve_trim(TEXT(A), buffer, 0), JOGIMADUVE_NO_ELEMENT, 0, "the original is meant", __LINE__);
    ACCEPTED(GOOD, A, JOGIMADUVE_NO_ELEMENT, 0);
    answers(jogimaduve_trim(TEXT(GOOD), buffer, 0), JOGIMADUVE_SHORT_BUFFER, sizeof GOOD - 1, "the proposal is meant", __LINE__);
    answers(jogimaduve_accept(long_file, sizeof long_file, TEXT(A)), JOGIMADUVE_TOO_LONG, 0, "too long", __LINE__);
    answers(jogimaduve_accept(TEXT(GOOD), long_file, sizeof long_file), JOGIMADUVE_TOO_LONG, 0, "too long", __LINE__);
    answers(jogimaduve_accept(TEXT(GOOD), long_file, sizeof long_file - 1), JOGIMADUVE_BAD_LINE, 1, "as long as can be", __LINE__);
}

#define JOINED(first, second, word, number, line) answers(jogimaduve_join(TEXT(first), TEXT(second), TEXT(word), buffer, sizeof buffer), number, line, second, __LINE__)

/* The longest text is the longest file; which of three texts a refusal means is told by each file alone. */
static void joined(void) {
    static const char other[] = A "P\t0\tother\tdeny-overrides\t*\n", text[] = A "S\t0\tjoined\tdeny-overrides\t*\nP\t1\ttop\tfirst-applicable\t*\nP\t1\tother\tdeny-overrides\t*\n";
    answers(jogimaduve_join(TEXT(A P), TEXT(other), TEXT("deny-overrides"), buffer, 0), JOGIMADUVE_SHORT_BUFFER, sizeof text - 1, "no buffer", __LINE__);
    JOINED(A P, other, "deny-overrides", JOGIMADUVE_DONE, sizeof text - 1);
    check(memcmp(buffer, text, sizeof text - 1) == 0, "joined", __LINE__);
    JOINED(A P, SETS, "deny-overrides", JOGIMADUVE_OTHER_ATTRIBUTE, 1);
    JOINED(A P, other, "deny", JOGIMADUVE_BAD_WORD, 2);
    JOINED(A P, A P, "deny-overrides", JOGIMADUVE_NAME_USED, 4);
    JOINED(A, A P A, "deny", JOGIMADUVE_NO_ELEMENT, 0);
    JOINED(A P, A, "deny", JOGIMADUVE_NO_ELEMENT, 0);
    answers(jogimaduve_trim(TEXT(A P), buffer, 0), JOGIMADUVE_SHORT_BUFFER, sizeof A P - 1, "not the first file", __LINE__);
    answers(jogimaduve_trim(TEXT(A), buffer, 0), JOGIMADUVE_NO_ELEMENT, 0, "the second file is meant", __LINE__);
    answers(jogimaduve_join(long_file, sizeof long_file, TEXT(A), TEXT(""), buffer, sizeof buffer), JOGIMADUVE_TOO_LONG, 0, "too long", __LINE__);
    answers(jogimaduve_join(TEXT(A P), long_file, sizeof long_file - 1, TEXT(""), buffer, sizeof buffer), JOGIMADUVE_BAD_LINE, 1, "as long as can be", __LINE__);
}

int main(void) {
    memset(long_file, 'A', sizeof long_file);
    answers(jogimaduve_trim(long_file, sizeof long_file, buffer, sizeof buffer), JOGIMADUVE_TOO_LONG, 0, "too long", __LINE__);
    answers(jogimaduve_trim(long_file, sizeof long_file - 1, buffer, sizeof buffer), JOGIMADUVE_BAD_LINE, 1, "as long as can be", __LINE__);
    REFUSED("A\tx\n", JOGIMADUVE_BAD_LINE, 1);
    REFUSED("A\tx\t-a\n", JOGIMADUVE_BAD_NAME, 1);
    REFUSED("A\tx\ta\ta\n", JOGIMADUVE_NAME_USED, 1);
    REFUSED("A\tx\t0\t1\t2\t3\t4\t5\t6\t7\t8\t9\ta\tb\tc\td\te\tf\tg\n", JOGIMADUVE_TOO_MANY, 1);
    REFUSED(A P A, JOGIMADUVE_NAME_USED, 3);
    REFUSED(A P "A\ty\ta\n", JOGIMADUVE_BAD_PLACE, 3);
    REFUSED(A "P\t0\ttop\tonly-one-applicable\t*\n", JOGIMADUVE_BAD_WORD, 2);
    REFUSED(A "P\t0\ttop\tdeny-overrides\ta,b\n", JOGIMADUVE_BAD_TARGET, 2);
    REFUSED(A, JOGIMADUVE_NO_ELEMENT, 0);
    REFUSED(GOOD "O\tlog\tpermit\n", JOGIMADUVE_BAD_OBLIGATION, 5);
    answers(bare_decision(TEXT(GOOD), TEXT("c")), JOGIMADUVE_BAD_REQUEST, 1, "no value", __LINE__);
    answers(bare_decision(TEXT(GOOD), TEXT("a\ta")), JOGIMADUVE_BAD_REQUEST, 0, "two fields", __LINE__);
    /* a length of 0 asks for the bytes needed, and so many are enough */
    answers(jogimaduve_trim(TEXT(GOOD), buffer, 0), JOGIMADUVE_SHORT_BUFFER, sizeof GOOD - 1, "no buffer", __LINE__);
    jogimaduve_answer needed = jogimaduve_report(TEXT(GOOD), buffer, 0);
    check(needed.number == JOGIMADUVE_SHORT_BUFFER, "no buffer", __LINE__);
    answers(jogimaduve_report(TEXT(GOOD), buffer, needed.second), JOGIMADUVE_DONE, needed.second, "the bytes needed", __LINE__);
    answers(jogimaduve_value_pairs(TEXT(GOOD), TEXT("x"), buffer, sizeof buffer), JOGIMADUVE_NO_M_LINE, 0, "an A line", __LINE__);
    needed = jogimaduve_value_pairs(TEXT(SETS), TEXT("x"), buffer, 0);
    check(needed.number == JOGIMADUVE_SHORT_BUFFER, "no buffer", __LINE__);
    answers(jogimaduve_value_pairs(TEXT(SETS), TEXT("x"), buffer, needed.second), JOGIMADUVE_DONE, needed.second, "the bytes needed", __LINE__);
    answers(jogimaduve_next_rule(TEXT(GOOD), buffer, sizeof buffer), JOGIMADUVE_DONE, 0, "no rule to strike", __LINE__);
    answers(jogimaduve_strike(TEXT(GOOD), TEXT("r2"), buffer, sizeof buffer), JOGIMADUVE_NOT_NEEDLESS, 0, "a rule that does work", __LINE__);
    DECIDED(GOOD, "a", JOGIMADUVE_PERMIT);
    DECIDED(GOOD, "b", JOGIMADUVE_DENY);
    DECIDED(A P, "a", JOGIMADUVE_NOT_APPLICABLE);
    DECIDED(A "S\t0\ttop\tonly-one-applicable\t*\nP\t1\tp\tdeny-overrides\t*\nP\t1\tq\tdeny-overrides\t*\n", "a", JOGIMADUVE_INDETERMINATE);
    steps();
    proposals();
    joined();
    longest_name();
    longest_request();
    longest_obligations();
    return checks_done();
}
