/* Counts checks; each failure is printed with its line. */
#ifndef CHECK_H
#define CHECK_H

#include <stdio.h>
#include <string.h>

#include "jogimaduve.h"

static int checks_passed;
static int checks_failed;

static void check(int holds, const char *what, int line) {
    if (holds) {
        checks_passed++;
    } else {
        checks_failed++;
        printf("line %d: %s\n", line, what);
    }
}

static int checks_done(void) {
    printf("%d passed, %d failed\n", checks_passed, checks_failed);
    return checks_failed != 0;
}

static void answers(jogimaduve_answer got, uint32_t number, uint32_t second, const char *what, int line) {
    int holds = got.number == number && got.second == second;
    check(holds, what, line);
    if (!holds) {
        printf("    expected %u %u, got %u %u\n", number, second, got.number, got.second);
    }
}

/* What a request gets of a file that has no obligations: it needs no room for them, and none come. */
static inline jogimaduve_answer bare_decision(const uint8_t *file, size_t size, const uint8_t *request, size_t length) {
    uint8_t room = 0xa5;
    jogimaduve_decision got = jogimaduve_decide(file, size, request, length, &room, 0);
    if (got.length != 0 || room != 0xa5) got.number = UINT32_MAX; /* no answer that is expected */
    return (jogimaduve_answer){got.number, got.second};
}

/* A text without its ending zero, as bytes and a length. */
#define TEXT(s) (const uint8_t *)(s), sizeof(s) - 1

#define DECIDES(file, request, number, second) \
    answers(bare_decision(TEXT(file), TEXT(request)), number, second, #file " on " #request, __LINE__)
#define GIVES(file, request, decision) DECIDES(file, request, 0, decision)

#endif
