/* A policy that is trimmed in place: its text with other bytes around it, and a step with all that it leaves. */
#ifndef HELD_H
#define HELD_H

#include <stdlib.h>

#include "check.h"

enum { AROUND = 61, MOST_BYTES = JOGIMADUVE_LONGEST_FILE + 1 }; /* a byte more, for a file that is too long */

struct held {
    uint8_t memory[AROUND + MOST_BYTES + AROUND];
    size_t length;
};

static uint8_t *text_of(struct held *held) { return held->memory + AROUND; }

/* A fresh state. No two bytes beside each other are alike around it, so that a byte that moves is seen. */
static void hold(struct held *held, const uint8_t *file, size_t size) {
    for (size_t i = 0; i < sizeof held->memory; i++) held->memory[i] = (uint8_t)(i * 37 + 131 + i / 256);
    memcpy(text_of(held), file, size);
    held->length = size;
}

static int is_step(jogimaduve_stepped got, uint32_t number, uint32_t second, uint32_t struck) {
    return got.number == number && got.second == second && got.struck == struck;
}

/* The same step of a copy with nothing behind it, where a memory checker sees what is read or written there. */
static int steps_alone(const uint8_t *text, size_t length, jogimaduve_stepped wanted, const uint8_t *after) {
    uint8_t *copy = malloc(length + (length == 0));
    if (copy == NULL) abort();
    memcpy(copy, text, length);
    jogimaduve_stepped got = jogimaduve_step(copy, length);
    int same = is_step(got, wanted.number, wanted.second, wanted.struck) && memcmp(copy, after, length) == 0;
    free(copy);
    return same;
}

/* A step: its answer, and all memory afterwards. That is the text left, and from its end on the bytes that stood there. */
static void steps(struct held *held, uint32_t struck, const uint8_t *left, size_t size, const char *what, int line) {
    static struct held before, after;
    before = after = *held;
    memcpy(text_of(&after), left, size);
    jogimaduve_stepped got = jogimaduve_step(text_of(held), held->length);
    answers((jogimaduve_answer){got.number, got.second}, 0, (uint32_t)size, what, line);
    check(got.struck == struck, what, line);
    check(memcmp(held->memory, after.memory, sizeof held->memory) == 0, what, line);
    check(steps_alone(text_of(&before), held->length, got, text_of(&after)), what, line);
    *held = after;
    held->length = size;
}

#endif
