/* The stack that each operation takes, on a file that makes it take the most, is within what the header says, with a quarter
 * to spare. Not for valgrind, which watches stacks. */
#define _DEFAULT_SOURCE
#include <pthread.h>
#include <stdlib.h>
#include <sys/mman.h>

#include "c/check.h"

enum { STACK = 1 << 20, PAINT = 0x5a };

static char file[JOGIMADUVE_LONGEST_FILE];
static size_t size, last; /* of the file, and of its last line */
static uint8_t buffer[JOGIMADUVE_REPORT_BUFFER];

static void *nothing(void *unused) { return unused; }

static void *decide(void *unused) {
    jogimaduve_decision got = jogimaduve_decide((const uint8_t *)file, size, TEXT("a\ta\ta"), buffer, sizeof buffer);
    answers((jogimaduve_answer){got.number, got.second}, JOGIMADUVE_DONE, JOGIMADUVE_PERMIT, "decide", __LINE__);
    check(got.length == 7 * strlen("log\n"), "decide", __LINE__);
    return unused;
}

static void *trim(void *unused) {
    answers(jogimaduve_trim((const uint8_t *)file, size, buffer, sizeof buffer), JOGIMADUVE_DONE, (uint32_t)(size - last), "trim", __LINE__);
    return unused;
}

/* The last rule, and in the file without it, where each rule is looked at, none. */
static void *next_rule(void *unused) {
    answers(jogimaduve_next_rule((const uint8_t *)file, size, buffer, sizeof buffer), JOGIMADUVE_DONE, strlen("again"), "next rule", __LINE__);
    answers(jogimaduve_next_rule((const uint8_t *)file, size - last, buffer, sizeof buffer), JOGIMADUVE_DONE, 0, "next rule", __LINE__);
    return unused;
}

static void *strike(void *unused) {
    answers(jogimaduve_strike((const uint8_t *)file, size, TEXT("again"), buffer, sizeof buffer), JOGIMADUVE_DONE, (uint32_t)(size - last), "strike", __LINE__);
    answers(jogimaduve_strike((const uint8_t *)file, size, TEXT("r1"), buffer, sizeof buffer), JOGIMADUVE_NOT_NEEDLESS, 0, "strike", __LINE__);
    return unused;
}

/* The last rule, then none. */
static void *step(void *unused) {
    memcpy(buffer, file, size);
    jogimaduve_stepped got = jogimaduve_step(buffer, size);
    check(got.number == JOGIMADUVE_DONE && got.second == size - last && got.struck == 1, "step", __LINE__);
    got = jogimaduve_step(buffer, size - last);
    check(got.number == JOGIMADUVE_DONE && got.second == size - last && got.struck == 0, "step", __LINE__);
    return unused;
}

/* The file less its first rule; its length. */
static size_t without_first(uint8_t *text) {
    size_t first = (size_t)(strstr(file, "\nR\t") + 1 - file), next = (size_t)(strchr(file + first, '\n') + 1 - file);
    memcpy(text, file, first);
    memcpy(text + first, file + next, size - next);
    return size - (next - first);
}

/* Without the last rule, where each rule that is left is looked at; with it; without both equal rules; with a last
 * line that the original lacks; with a last line that is cut. */
static void *accept(void *unused) {
    const uint8_t *original = (const uint8_t *)file;
    answers(jogimaduve_accept(original, size, original, size - last), JOGIMADUVE_DONE, 0, "accept", __LINE__);
    answers(jogimaduve_accept(original, size, original, size), JOGIMADUVE_NEEDLESS_RULE, 25, "accept", __LINE__);
    answers(jogimaduve_accept(original, size, buffer, without_first(buffer) - last), JOGIMADUVE_OTHER_OUTCOME, 0, "accept", __LINE__);
    answers(jogimaduve_accept(original, size - last, original, size), JOGIMADUVE_OTHER_LINE, 81, "accept", __LINE__);
    answers(jogimaduve_accept(original, size, original, size - 1), JOGIMADUVE_BAD_LINE, 81, "accept", __LINE__);
    return unused;
}

/* The file's attributes in another order, a set and 55 policies. */
static size_t other_file(char *text) {
    size_t length = 0;
    for (int line = 2; line >= 0; line--) {
        const char *start = file;
        for (int i = 0; i < line; i++) start = strchr(start, '\n') + 1;
        length += (size_t)sprintf(text + length, "%.*s\n", (int)strcspn(start, "\n"), start);
    }
    length += (size_t)sprintf(text + length, "S\t0\tother\tdeny-overrides\t*\t*\t*\n");
    for (int i = 0; i < 55; i++) length += (size_t)sprintf(text + length, "P\t1\tp%d\tdeny-overrides\t*\tb\tc\nO\tlog\tpermit\nO\tslow\tdeny\n", i);
    return length;
}

/* The file without its rules: 64 elements, depth 7. Then depth 8, a bad word, another attribute, and the second file refused. */
static void *join(void *unused) {
    static char other[JOGIMADUVE_LONGEST_FILE];
    const uint8_t *one = (const uint8_t *)file, *two = (const uint8_t *)other;
    size_t bare = (size_t)(strstr(file, "\nR\t") + 1 - file), length = other_file(other);
    check(jogimaduve_join(one, bare, two, length, TEXT("deny-overrides"), buffer, sizeof buffer).number == JOGIMADUVE_DONE, "join", __LINE__);
    check(jogimaduve_join(two, length, one, bare, TEXT("only-one-applicable"), buffer, sizeof buffer).number == JOGIMADUVE_DONE, "join", __LINE__);
    answers(jogimaduve_join(one, size, two, length, TEXT("deny-overrides"), buffer, sizeof buffer), JOGIMADUVE_BAD_PLACE, 26, "join", __LINE__);
    answers(jogimaduve_join(two, length, one, bare, TEXT("deny"), buffer, sizeof buffer), JOGIMADUVE_BAD_WORD, 4, "join", __LINE__);
    other[4] = 'q'; /* the first value */
    answers(jogimaduve_join(one, bare, two, length, TEXT("deny-overrides"), buffer, sizeof buffer), JOGIMADUVE_OTHER_ATTRIBUTE, 1, "join", __LINE__);
    answers(jogimaduve_join(one, bare, two, length - 1, TEXT("deny-overrides"), buffer, sizeof buffer), JOGIMADUVE_BAD_LINE, 3 + 1 + 3 * 55, "join", __LINE__);
    return unused;
}

static void *report(void *unused) {
    check(jogimaduve_report((const uint8_t *)file, size, buffer, sizeof buffer).number == JOGIMADUVE_DONE, "report", __LINE__);
    return unused;
}

static void *value_pairs(void *unused) {
    jogimaduve_answer got = jogimaduve_value_pairs((const uint8_t *)file, size, TEXT("x"), buffer, sizeof buffer);
    check(got.number == JOGIMADUVE_DONE && got.second > 0, "value pairs", __LINE__);
    return unused;
}

/* How many bytes of a painted stack a thread changes. */
static size_t used(void *run(void *)) {
    uint8_t *stack = mmap(NULL, STACK, PROT_READ | PROT_WRITE, MAP_PRIVATE | MAP_ANONYMOUS | MAP_STACK, -1, 0);
    pthread_attr_t attributes;
    pthread_t thread;
    memset(stack, PAINT, STACK);
    pthread_attr_init(&attributes);
    pthread_attr_setstack(&attributes, stack, STACK);
    if (pthread_create(&thread, &attributes, run, NULL) != 0) abort();
    pthread_join(thread, NULL);
    pthread_attr_destroy(&attributes);
    size_t clean = 0;
    while (clean < STACK && stack[clean] == PAINT) clean++;
    munmap(stack, STACK);
    return STACK - clean;
}

static void within(void *run(void *), size_t most, const char *what) {
    size_t own = used(nothing);
    size_t bytes = used(run) - own;
    printf("%s: %zu bytes of stack\n", what, bytes);
    check(bytes <= most / 4 * 3, what, __LINE__);
}

/* Three attributes of so many values, the first by this letter, depth 7, 64 elements, obligations: the deepest calls. The last
 * rule is the first again, the only one that does no work. */
static void largest(char letter, const int values[3]) {
    size = 0;
    for (int i = 0; i < 3; i++) {
        size += (size_t)sprintf(file + size, "%c\t%c", i == 0 ? letter : 'A', 'x' + i);
        for (int value = 0; value < values[i]; value++) size += (size_t)sprintf(file + size, "\t%c", 'a' + value);
        size += (size_t)sprintf(file + size, "\n");
    }
    for (int depth = 0; depth < 7; depth++) {
        size += (size_t)sprintf(file + size, "%c\t%d\te%d\tfirst-applicable\t*\t*\t*\n", depth < 6 ? 'S' : 'P', depth, depth);
        size += (size_t)sprintf(file + size, "O\tlog\tpermit\nO\tslow\tdeny\n");
    }
    for (int rule = 0; rule < 56; rule++) {
        const char *effect = rule % 2 == 0 ? "permit" : "deny";
        size += (size_t)sprintf(file + size, "R\t7\tr%d\t%s\t%c\t%c\t*\n", rule, effect, 'a' + rule % values[0], 'a' + rule / values[0]);
    }
    last = (size_t)sprintf(file + size, "R\t7\tagain\tpermit\ta\ta\t*\n");
    size += last;
}

int main(void) {
    /* the most requests there can be; and with sets, 255 times 16 */
    largest('A', (const int[]){16, 16, 16});
    within(decide, JOGIMADUVE_DECIDE_STACK, "decide");
    within(trim, JOGIMADUVE_TRIM_STACK, "trim");
    within(next_rule, JOGIMADUVE_NEXT_RULE_STACK, "next rule");
    within(strike, JOGIMADUVE_STRIKE_STACK, "strike");
    within(step, JOGIMADUVE_STEP_STACK, "step");
    within(accept, JOGIMADUVE_ACCEPT_STACK, "accept");
    within(join, JOGIMADUVE_JOIN_STACK, "join");
    within(report, JOGIMADUVE_REPORT_STACK, "report");
    largest('M', (const int[]){8, 16, 1});
    within(value_pairs, JOGIMADUVE_VALUE_PAIRS_STACK, "value pairs");
    return checks_done();
}
