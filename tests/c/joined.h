/* Two files that are joined: the text in every buffer, refusals, and that both files and the word stay as they were. */
#ifndef JOINED_H
#define JOINED_H

#include <stdlib.h>

#include "text.h"

static const uint8_t *other_file, *given_word;
static size_t other_length, word_length;

/* A copy with nothing behind it, where a memory checker sees what is read or written there. */
static uint8_t *alone(const uint8_t *text, size_t length) {
    uint8_t *copy = malloc(length + (length == 0));
    if (copy == NULL) abort();
    memcpy(copy, text, length);
    return copy;
}

/* Where they stand, which can be memory that nothing may be written to. */
static jogimaduve_answer join_here(const uint8_t *file, size_t size, uint8_t *text, size_t room) {
    return jogimaduve_join(file, size, other_file, other_length, given_word, word_length, text, room);
}

static jogimaduve_answer join_alone(const uint8_t *file, size_t size, uint8_t *text, size_t room) {
    uint8_t *first = alone(file, size), *second = alone(other_file, other_length), *word = alone(given_word, word_length);
    jogimaduve_answer got = jogimaduve_join(first, size, second, other_length, word, word_length, text, room);
    int as_before = memcmp(first, file, size) == 0 && memcmp(second, other_file, other_length) == 0 && memcmp(word, given_word, word_length) == 0;
    if (!as_before) got.number = UINT32_MAX; /* no answer that is expected */
    free(first);
    free(second);
    free(word);
    return got;
}

/* The second file before the word and the first, and behind them: what is read beyond an end is good. */
static jogimaduve_answer join_beside(const uint8_t *file, size_t size, uint8_t *text, size_t room) {
    static uint8_t memory[3 * (JOGIMADUVE_LONGEST_FILE + 100)];
    uint8_t *word = memory + other_length, *first = word + word_length;
    memcpy(memory, other_file, other_length);
    memcpy(word, given_word, word_length);
    memcpy(first, file, size);
    memcpy(first + size, other_file, other_length);
    jogimaduve_answer got = jogimaduve_join(first, size, memory, other_length, word, word_length, text, room);
    jogimaduve_answer behind = jogimaduve_join(first, size, first + size, other_length, word, word_length, text, room);
    if (got.number != behind.number || got.second != behind.second) got.number = UINT32_MAX;
    return got;
}

static void joins(const uint8_t *first, size_t size, const uint8_t *second, size_t length, const char *word, const uint8_t *text, size_t text_length, const char *what, int line) {
    other_file = second;
    other_length = length;
    given_word = (const uint8_t *)word;
    word_length = strlen(word);
    gives(join_here, first, size, text, text_length, what, line);
    gives(join_alone, first, size, text, text_length, what, line);
    gives(join_beside, first, size, text, text_length, what, line);
}

/* In a buffer that is long enough and in none. */
static void refuses_both(const uint8_t *first, size_t size, const uint8_t *second, size_t length, const uint8_t *word, size_t size_of_word, uint32_t number, uint32_t line_told, const char *what, int line) {
    other_file = second;
    other_length = length;
    given_word = word;
    word_length = size_of_word;
    refuses(join_here, first, size, number, line_told, what, line);
    refuses(join_alone, first, size, number, line_told, what, line);
    refuses(join_beside, first, size, number, line_told, what, line);
    answers(join_here(first, size, buffer, 0), number, line_told, what, line);
    check(untouched(0), what, line);
}

#define JOINS(first, second, word, text) joins(TEXT(first), TEXT(second), word, TEXT(text), #first " and " #second, __LINE__)
#define REFUSES(first, second, word, number, line_told) refuses_both(TEXT(first), TEXT(second), TEXT(word), number, line_told, #first " and " #second ", " #word, __LINE__)

#define DENY "deny-overrides"
#define PERMIT "permit-overrides"
#define FIRST "first-applicable"
#define ONLY "only-one-applicable"

#endif
