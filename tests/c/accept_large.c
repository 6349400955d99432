/* jogimaduve_accept on the largest files: the most bytes, rules, requests, obligations and lines; then in two threads at once. */
#include <pthread.h>

#include "judge.h"
#include "large.h"

static char file[JOGIMADUVE_LONGEST_FILE + 2], left[JOGIMADUVE_LONGEST_FILE + 2];
static size_t size;

/* The file less the rules that are chosen by their number, from 0; its length. */
static size_t leave_out(int chosen(int rule), char *text) {
    size_t length = 0;
    int rule = 0;
    for (size_t at = 0, end; at < size; at = end) {
        for (end = at; file[end++] != '\n';) {}
        if (file[at] == 'R' && chosen(rule++)) continue;
        memcpy(text + length, file + at, end - at);
        length += end - at;
    }
    return length;
}

static int single; /* the one rule that is left out, or kept */
static int is_single(int rule) { return rule == single; }
static int is_none(int rule) { return rule < 0; }

static void less(int chosen(int rule), uint32_t number, uint32_t second, const char *what, int line) {
    size_t length = leave_out(chosen, left);
    judges((const uint8_t *)file, size, (const uint8_t *)left, length, number, second, what, line);
}

/* 4,096 requests and 62 rules that each do work: none may go, and the first of its requests tells so. */
static void most_requests(void) {
    size = 0;
    for (char name = 'x'; name <= 'z'; name++) {
        size += (size_t)sprintf(file + size, "A\t%c", name);
        for (char value = 'a'; value <= 'p'; value++) size += (size_t)sprintf(file + size, "\t%c", value);
        size += (size_t)sprintf(file + size, "\n");
    }
    size += (size_t)sprintf(file + size, "S\t0\ttop\tdeny-overrides\t*\t*\t*\nP\t1\tp\tfirst-applicable\t*\t*\t*\n");
    for (int rule = 0; rule < 62; rule++) {
        size += (size_t)sprintf(file + size, "R\t2\tr%d\t%s\t%c\t%c\t*\n", rule, rule % 2 == 0 ? "permit" : "deny", 'a' + rule % 16, 'a' + rule / 16);
    }
    less(is_none, 0, 0, "62 rules that do work", __LINE__);
    static const int some[] = {0, 15, 16, 40, 60, 61};
    for (size_t i = 0; i < sizeof some / sizeof *some; i++) {
        single = some[i];
        less(is_single, 17, (uint32_t)(single % 16 * 16 + single / 16) * 16, "a rule that does work", __LINE__);
    }
}

/* A set of twelve values: the first one with the last value is number 2,047. */
static void most_sets(void) {
    size = (size_t)sprintf(file, "M\tx\ta\tb\tc\td\te\tf\tg\th\ti\tj\tk\tl\nP\t0\ttop\tfirst-applicable\t*\nR\t1\tr1\tdeny\tl\nR\t1\tr2\tpermit\t*\nR\t1\tr3\tpermit\tl\n");
    less(is_none, 18, 5, "a rule that does no work", __LINE__);
    single = 2;
    less(is_single, 0, 0, "a rule that does no work", __LINE__);
    single = 0;
    less(is_single, 17, 2047, "a rule that does work", __LINE__);
}

static int in_later_half(int rule) { return rule >= 31; }
static int in_earlier_half(int rule) { return rule < 31; }
static int odd_of_earlier(int rule) { return rule < 31 ? rule % 2 == 1 : (rule - 31) % 2 == 0; }
static int all_but_last_twins(int rule) { return rule >= 31 && rule < 61; }

/* 31 rules, and each again: one of the two may go, whichever. */
static void most_rules(void) {
    size = many(file, 0);
    less(is_none, 18, 5, "twins", __LINE__);
    less(in_later_half, 0, 0, "twins", __LINE__);
    less(in_earlier_half, 0, 0, "twins", __LINE__);
    less(odd_of_earlier, 0, 0, "twins", __LINE__);
    less(all_but_last_twins, 18, 35, "twins", __LINE__);
    single = 61;
    less(is_single, 18, 5, "twins", __LINE__);
    size = many(file, 1);
    less(is_none, 18, 5, "a rule within another", __LINE__);
    single = 0;
    less(is_single, 0, 0, "a rule within another", __LINE__);
    single = 1;
    less(is_single, 17, 15, "a rule that holds another", __LINE__);
}

static int all_between(int rule) { return rule > 0 && rule < 56; }
static int all_but_some(int rule) { return rule != single && rule < 56; }

/* 16,384 bytes: 56 equal rules, of which one does for all, and a last one. */
static void most_bytes(void) {
    size = longest(file);
    check(size == JOGIMADUVE_LONGEST_FILE, "16,384 bytes", __LINE__);
    less(is_none, 18, 5, "16,384 bytes", __LINE__);
    less(all_between, 0, 0, "16,384 bytes", __LINE__);
    for (single = 1; single < 56; single += 18) less(all_but_some, 0, 0, "16,384 bytes", __LINE__);
    single = 56;
    less(is_single, 17, 15 * 256, "the last rule", __LINE__);
    /* the last line is other, or cut, or another is behind it */
    size_t length = leave_out(is_none, left);
    memcpy(left + size - strlen("t\tdeny\t*\t*\t*\n"), "r", 1);
    judges((const uint8_t *)file, size, (const uint8_t *)left, length, 16, 61, "the last line", __LINE__);
    leave_out(is_none, left);
    judges((const uint8_t *)file, size, (const uint8_t *)left, length - 1, 2, 61, "a byte less", __LINE__);
    judges((const uint8_t *)left, length - 1, (const uint8_t *)file, size, 2, 61, "a byte less", __LINE__);
    left[length] = '\n';
    judges((const uint8_t *)file, size, (const uint8_t *)left, length + 1, 1, 0, "a byte more", __LINE__);
    judges((const uint8_t *)left, length + 1, (const uint8_t *)file, size, 1, 0, "a byte more", __LINE__);
    judges((const uint8_t *)left, length + 1, (const uint8_t *)left, length + 1, 1, 0, "a byte more", __LINE__);
}

/* Each chain has twelve of them, which come by its rule alone. */
static void most_obligations(void) {
    size = most_obliged(file);
    less(is_none, 0, 0, "the most obligations", __LINE__);
    for (single = 0; single < 9; single += 4) less(is_single, 17, 0, "twelve obligations less", __LINE__);
}

#define TWO "O\tlog\tpermit\nO\tslow\tdeny\n"
#define POLICY "\tfirst-applicable\ta\t*\t*\t*\t*\t*\n" TWO

/* Puts behind the file a rule that permits one request. Those from 32 on have b for the first attribute. */
static void put_rule(int rule, int request) {
    size += (size_t)sprintf(file + size, "R\t2\tr%d\tpermit", rule);
    for (int bit = 32; bit > 0; bit /= 2) size += (size_t)sprintf(file + size, "\t%c", request & bit ? 'b' : 'a');
    size += (size_t)sprintf(file + size, "\n");
}

/* Six attributes, a set, so many policies for a; two obligations on each of these, and a rule below the first policies. */
static void put_policies(int policies, int rules) {
    size = 0;
    for (char name = 'u'; name <= 'z'; name++) size += (size_t)sprintf(file + size, "A\t%c\ta\tb\n", name);
    size += (size_t)sprintf(file + size, "S\t0\ttop\tdeny-overrides\t*\t*\t*\t*\t*\t*\n" TWO);
    for (int policy = 0; policy < policies; policy++) {
        size += (size_t)sprintf(file + size, "P\t1\tp%d" POLICY, policy);
        if (policy < rules) put_rule(policy, policy);
    }
}

/* Less these rules, and a letter in other case: that with which this end of the file begins. */
static void other_case(int chosen(int rule), const char *end, uint32_t line) {
    size_t length = leave_out(chosen, left);
    left[length - strlen(end)] ^= 32;
    judges((const uint8_t *)file, size, (const uint8_t *)left, length, 16, line, end, __LINE__);
}

/* 64 elements with two obligations each: 198 lines. */
static void most_lines(void) {
    put_policies(63, 0);
    less(is_none, 0, 0, "198 lines", __LINE__);
    other_case(is_none, "slow\tdeny\n", 198);
    other_case(is_none, "log\tpermit\nO\tslow\tdeny\n", 197);
    other_case(is_none, "p62" POLICY, 196);
    size_t shorter = size - strlen("O\tslow\tdeny\n"), shortest = size - strlen("P\t1\tp62" POLICY);
    const uint8_t *whole = (const uint8_t *)file;
    judges(whole, size, whole, shorter, 16, 0, "197 lines", __LINE__);
    judges(whole, size, whole, shortest, 16, 0, "195 lines", __LINE__);
    judges(whole, shorter, whole, size, 16, 198, "198 lines", __LINE__);
    judges(whole, shortest, whole, size, 16, 196, "198 lines", __LINE__);
}

/* No rule can stand on a later line than 196. Here it does no work, then it does. */
static void latest_rule(void) {
    single = 0;
    put_policies(62, 0);
    size_t shorter = size;
    put_rule(0, 63);
    less(is_none, 18, 196, "a rule on line 196", __LINE__);
    less(is_single, 0, 0, "a rule on line 196", __LINE__);
    other_case(is_none, "r0\tpermit\tb\tb\tb\tb\tb\tb\n", 196);
    judges((const uint8_t *)file, shorter, (const uint8_t *)file, size, 16, 196, "a rule on line 196", __LINE__);
    put_policies(62, 0);
    put_rule(0, 31);
    less(is_none, 0, 0, "a rule on line 196", __LINE__);
    less(is_single, 17, 31, "a rule on line 196", __LINE__);
}

static int is_before_single(int rule) { return rule < single; }

/* 31 rules that do work, and one behind them: for b, where its policy is not asked; then the equal of the last of them. */
static void late_rules(void) {
    put_policies(31, 31);
    put_rule(31, 32);
    single = 31;
    less(is_none, 18, 134, "the last of 32 rules", __LINE__);
    less(is_single, 0, 0, "the last of 32 rules", __LINE__);
    other_case(is_none, "r31\tpermit\tb\ta\ta\ta\ta\ta\n", 134);
    other_case(is_before_single, "r31\tpermit\tb\ta\ta\ta\ta\ta\n", 103);
    put_policies(31, 31);
    put_rule(31, 30);
    less(is_none, 18, 133, "twins at the end", __LINE__);
    for (single = 31; single >= 30; single--) less(is_single, 0, 0, "twins at the end", __LINE__);
    for (; single >= 28; single--) less(is_single, 17, (uint32_t)single, "a rule that does work", __LINE__);
}

#define FIRST "A\tx\ta\tb\nS\t0\ttop\tfirst-applicable\t*\nP\t1\tp\tfirst-applicable\t*\nO\tlog\tpermit\n"
#define R "R\t2\tr\tpermit\ta\n"
#define REST "P\t1\tq\tfirst-applicable\t*\nO\tLog\tpermit\nR\t2\ts\tpermit\tb\n"
#define T "R\t2\tt\tpermit\tb\n"

struct pair { const uint8_t *original; size_t size; const uint8_t *proposal; size_t length; jogimaduve_answer wanted; };

struct runner {
    struct pair pairs[4];
    int rounds, done, wrong;
};

/* Again and again; the answers that are not those of one thread alone are counted. */
static void *run(void *given) {
    struct runner *runner = given;
    for (int round = 0; round < 4 * runner->rounds; round++) {
        const struct pair *pair = &runner->pairs[round % 4];
        jogimaduve_answer got = jogimaduve_accept(pair->original, pair->size, pair->proposal, pair->length);
        runner->wrong += got.number != pair->wanted.number || got.second != pair->wanted.second;
        runner->done++;
    }
    return NULL;
}

static void threads(void) {
    static char halves[2][JOGIMADUVE_LONGEST_FILE];
    size = many(file, 0);
    size_t later = leave_out(in_earlier_half, halves[0]), earlier = leave_out(in_later_half, halves[1]);
    const uint8_t *whole = (const uint8_t *)file, *one = (const uint8_t *)halves[0], *other = (const uint8_t *)halves[1];
    struct runner runners[2] = {
        {{{TEXT(FIRST R REST T), TEXT(FIRST R REST), {0, 0}}, {TEXT(FIRST R REST T), TEXT(FIRST R REST T), {18, 8}},
          {TEXT(FIRST R REST T), TEXT(FIRST REST), {17, 0}}, {TEXT(FIRST R REST), TEXT(FIRST R REST T), {16, 9}}}, 250, 0, 0},
        {{{whole, size, one, later, {0, 0}}, {whole, size, whole, size, {18, 5}},
          {one, later, other, earlier, {16, 5}}, {whole, size, other, earlier, {0, 0}}}, 15, 0, 0},
    };
    pthread_t thread[2];
    for (int i = 0; i < 2; i++) {
        if (pthread_create(&thread[i], NULL, run, &runners[i]) != 0) abort();
    }
    for (int i = 0; i < 2; i++) {
        pthread_join(thread[i], NULL);
        check(runners[i].done == 4 * runners[i].rounds && runners[i].wrong == 0, "two threads", __LINE__);
    }
}

int main(void) {
    most_requests();
    most_sets();
    most_rules();
    most_bytes();
    most_obligations();
    most_lines();
    latest_rule();
    late_rules();
    threads();
    return checks_done();
}
