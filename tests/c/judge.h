/* A proposal beside its original: the answer on both, wherever they stand in memory, and that both stay as they were. */
#ifndef JUDGE_H
#define JUDGE_H

#include <stdlib.h>

#include "check.h"

/* A copy with nothing behind it, where a memory checker sees what is read or written there. */
static uint8_t *copy_of(const uint8_t *text, size_t length) {
    uint8_t *copy = malloc(length + (length == 0));
    if (copy == NULL) abort();
    memcpy(copy, text, length);
    return copy;
}

/* Each alone: the answer, and the bytes of both afterwards. */
static void judges_alone(const uint8_t *original, size_t size, const uint8_t *proposal, size_t length, jogimaduve_answer wanted, const char *what, int line) {
    uint8_t *one = copy_of(original, size), *other = copy_of(proposal, length);
    answers(jogimaduve_accept(one, size, other, length), wanted.number, wanted.second, what, line);
    check(memcmp(one, original, size) == 0 && memcmp(other, proposal, length) == 0, what, line);
    free(one);
    free(other);
}

/* The original before the proposal and behind it: what is read beyond an end is a good line. */
static inline void judges_beside(const uint8_t *original, size_t size, const uint8_t *proposal, size_t length, jogimaduve_answer wanted, const char *what, int line) {
    static uint8_t memory[3 * (JOGIMADUVE_LONGEST_FILE + 1)], before[sizeof memory];
    size_t last = size + length;
    memcpy(memory, original, size);
    memcpy(memory + size, proposal, length);
    memcpy(memory + last, original, size);
    memcpy(before, memory, last + size);
    answers(jogimaduve_accept(memory, size, memory + size, length), wanted.number, wanted.second, what, line);
    answers(jogimaduve_accept(memory + last, size, memory + size, length), wanted.number, wanted.second, what, line);
    check(memcmp(memory, before, last + size) == 0, what, line);
}

/* Where they stand, which can be memory that nothing may be written to; each alone; beside each other. */
static inline void judges(const uint8_t *original, size_t size, const uint8_t *proposal, size_t length, uint32_t number, uint32_t second, const char *what, int line) {
    jogimaduve_answer wanted = {number, second};
    answers(jogimaduve_accept(original, size, proposal, length), number, second, what, line);
    judges_alone(original, size, proposal, length, wanted, what, line);
    judges_beside(original, size, proposal, length, wanted, what, line);
}

#define JUDGES(original, proposal, number, second) \
    judges(TEXT(original), TEXT(proposal), number, second, #proposal " of " #original, __LINE__)
#define ACCEPTS(original, proposal) JUDGES(original, proposal, 0, 0)

#endif
