/* Operations that put a text into a lent buffer: the text, the bytes behind it, short buffers, refusals. */
#ifndef TEXT_H
#define TEXT_H

#include "check.h"

typedef jogimaduve_answer operation(const uint8_t *file, size_t file_length, uint8_t *buffer, size_t buffer_length);

#define ROOM 100000
#define FILLED 0xa5

static uint8_t buffer[ROOM];

/* Every byte of the buffer from a place on is as it was. */
static int untouched(size_t from) {
    for (size_t i = from; i < ROOM; i++) {
        if (buffer[i] != FILLED) return 0;
    }
    return 1;
}

/* Room to spare, exactly enough, one byte less, none. An empty text needs no room. */
static void gives(operation *run, const uint8_t *file, size_t size, const uint8_t *text, size_t length, const char *what, int line) {
    memset(buffer, FILLED, ROOM);
    answers(run(file, size, buffer, ROOM), 0, (uint32_t)length, what, line);
    check(memcmp(buffer, text, length) == 0 && untouched(length), what, line);
    memset(buffer, FILLED, ROOM);
    answers(run(file, size, buffer, length), 0, (uint32_t)length, what, line);
    check(memcmp(buffer, text, length) == 0 && untouched(length), what, line);
    if (length == 0) return;
    memset(buffer, FILLED, ROOM);
    answers(run(file, size, buffer, length - 1), 11, (uint32_t)length, what, line);
    answers(run(file, size, buffer, 0), 11, (uint32_t)length, what, line);
    check(untouched(0), what, line);
}

static void refuses(operation *run, const uint8_t *file, size_t size, uint32_t number, uint32_t second, const char *what, int line) {
    memset(buffer, FILLED, ROOM);
    answers(run(file, size, buffer, ROOM), number, second, what, line);
    check(untouched(0), what, line);
}

/* Files that every operation refuses. */
static inline void refuses_bad_files(operation *run) {
    static uint8_t long_file[16385];
    memset(long_file, 'A', sizeof long_file);
    refuses(run, TEXT(""), 9, 0, "an empty file", __LINE__);
    refuses(run, TEXT("\n"), 2, 1, "an empty line", __LINE__);
    refuses(run, TEXT("A\tx\ta\nP\t0\ttop\tdeny-overrides\t*\nR\t1\tr1\tpermit\t*"), 2, 3, "no last newline", __LINE__);
    refuses(run, TEXT("A\tx\ta\nP\t0\ttop\tdeny-overrides\t*\nR\t1\tr1\tpermit\ta\n"), 8, 3, "a full value list", __LINE__);
    refuses(run, long_file, sizeof long_file, 1, 0, "16,385 bytes", __LINE__);
    refuses(run, long_file, sizeof long_file - 1, 2, 1, "16,384 bytes", __LINE__);
}

#endif
