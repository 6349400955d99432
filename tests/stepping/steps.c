/* Goes through whole spaces step by step, from request 0 until it comes again, and holds each request to the one of its
 * number: the first attribute weighs most. Whatever is no number of the request must stay as it was. */
#include <stdio.h>
#include <string.h>

#include "request.h"

static step *const steps[] = {
    next_request, by_quotient, stopping_early, comparing, by_truth, short_cut, by_size, by_label,
};

static int passed, failed;

static void request_of(size_t number, const struct counts *c, struct request *q) {
    for (size_t i = q->len; i > 0; i--) {
        q->values[i - 1] = number % c->counts[i - 1];
        number /= c->counts[i - 1];
    }
}

static int same(const struct request *a, const struct request *b) {
    return memcmp(a->several, b->several, sizeof a->several) == 0 && memcmp(a->values, b->values, sizeof a->values) == 0
        && a->len == b->len;
}

/* One space; behind the attributes stand counts of 0 and numbers that no attribute has. */
static int steps_through(step *next, size_t len, const size_t *counts) {
    struct request q, expected;
    struct counts c;
    size_t requests = 1;

    for (size_t i = 0; i < ATTRIBUTES; i++) {
        q.several[i] = (len + i) % 2 == 1;
        q.values[i] = i < len ? 0 : (size_t)-1 - i;
        c.counts[i] = i < len ? counts[i] : 0;
        if (i < len) requests *= counts[i];
    }
    q.len = len;
    expected = q;
    for (size_t n = 0; n < requests; n++) {
        q = next(q, c);
        request_of((n + 1) % requests, &c, &expected);
        if (!same(&q, &expected)) {
            printf("behind request %zu of", n);
            for (size_t i = 0; i < len; i++) printf(" %zu", counts[i]);
            printf("\n");
            return 0;
        }
    }
    return 1;
}

/* All spaces of up to this many attributes, the first len as chosen, whose other counts multiply to at most left. */
static int all_spaces(step *next, size_t len, size_t most, size_t left, size_t *counts) {
    if (!steps_through(next, len, counts)) return 0;
    for (size_t count = 1; len < most && count <= left; count++) {
        counts[len] = count;
        if (!all_spaces(next, len + 1, most, left / count, counts)) return 0;
    }
    return 1;
}

static void check(int holds) {
    if (holds) passed++; else failed++;
}

#define SPACE(...) \
    check(steps_through(next, sizeof(size_t[]){__VA_ARGS__} / sizeof(size_t), (size_t[]){__VA_ARGS__}))

int main(void) {
    size_t counts[ATTRIBUTES] = {0};

    for (size_t i = 0; i < sizeof steps / sizeof *steps; i++) {
        step *next = steps[i];
        SPACE(1);
        SPACE(16, 16, 16);
        SPACE(4, 4, 4, 4, 4, 4);
        SPACE(1, 1, 1, 1, 1, 1);
        SPACE(3, 1, 5, 1, 7);
        SPACE(4095);
        SPACE(63, 1, 63);
        SPACE(31, 2, 3, 1, 7, 3);
        check(all_spaces(next, 0, 2, 512, counts));
        check(all_spaces(next, 0, ATTRIBUTES, 32, counts));
    }
    printf("%d passed, %d failed\n", passed, failed);
    return failed != 0;
}
