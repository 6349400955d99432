/* What the cases are told with. */
#include "cases.h"

#include <stdio.h>
#include <string.h>

enum { TEXT_BYTES = 2000 };

int bad_cases;

size_t bytes_of(const char *text, uint8_t *bytes)
{
    size_t length = strlen(text);
    for (size_t i = 0; i < length; i++)
        bytes[i] = text[i] == ' ' ? '\t' : (uint8_t)text[i];
    return length;
}

static void expect(const char *what, struct answer answer, uint32_t number, uint32_t second)
{
    if (answer.number == number && answer.second == second)
        return;
    printf("%s: %lu %lu\n", what, (unsigned long)answer.number, (unsigned long)answer.second);
    bad_cases++;
}

/* Nothing is put behind the obligations, nor into a buffer of `room` bytes at all if that is less than they need. */
static void decides_in(const char *what, const char *policy, const char *line, size_t room, struct decided wanted,
                       const char *text)
{
    uint8_t file[FILE_BYTES + 1], request[400], bytes[TEXT_BYTES], out[TEXT_BYTES];
    size_t length = bytes_of(policy, file);

    memset(bytes, 7, sizeof bytes);
    memset(out, 7, sizeof out);
    memcpy(bytes, text, wanted.length);
    struct decided decided = ref_decide(file, length, request, bytes_of(line, request), out, room);
    expect(what, (struct answer){decided.number, decided.second}, wanted.number, wanted.second);
    if (decided.length != wanted.length || memcmp(out, bytes, sizeof out) != 0) {
        printf("%s: other obligations, %lu bytes\n", what, (unsigned long)decided.length);
        bad_cases++;
    }
}

void decides(const char *what, const char *policy, const char *line, uint32_t number, uint32_t second)
{
    decides_in(what, policy, line, 0, (struct decided){number, second, 0}, "");
    decides_in(what, policy, line, TEXT_BYTES, (struct decided){number, second, 0}, "");
}

void obliges(const char *what, const char *policy, const char *line, enum decision decision, const char *text)
{
    uint32_t needed = (uint32_t)strlen(text);

    decides_in(what, policy, line, TEXT_BYTES, (struct decided){0, decision, needed}, text);
    decides_in(what, policy, line, needed, (struct decided){0, decision, needed}, text);
    for (size_t room = 0; room < needed; room++)
        decides_in(what, policy, line, room, (struct decided){11, needed, 0}, text);
}

void refuses_text(const char *what, struct answer operation(const uint8_t *, size_t, uint8_t *, size_t),
                  const char *policy, size_t room, uint32_t number, uint32_t second)
{
    uint8_t file[FILE_BYTES + 1], out[TEXT_BYTES];
    size_t length = bytes_of(policy, file), same = 0;

    memset(out, 7, sizeof out);
    expect(what, operation(file, length, out, room), number, second);
    while (same < sizeof out && out[same] == 7)
        same++;
    if (same < sizeof out) {
        printf("%s: refused, but written to\n", what);
        bad_cases++;
    }
}

void gives_text(const char *what, struct answer operation(const uint8_t *, size_t, uint8_t *, size_t),
                const char *policy, const char *text)
{
    uint8_t file[FILE_BYTES + 1], wanted[TEXT_BYTES], out[TEXT_BYTES];
    size_t length = bytes_of(policy, file), needed = bytes_of(text, wanted);

    if (needed > 0)
        refuses_text(what, operation, policy, needed - 1, 11, (uint32_t)needed);
    memset(out, 7, sizeof out);
    expect(what, operation(file, length, out, needed), 0, (uint32_t)needed);
    if (memcmp(out, wanted, needed) != 0 || out[needed] != 7) {
        printf("%s: other text\n", what);
        bad_cases++;
    }
}

void writes(const char *lines, const struct record list[2], uint32_t number, uint32_t second, const char *text)
{
    uint8_t bytes[200], wanted[400] = {0}, out[400] = {0};
    size_t length = bytes_of(lines, bytes);

    expect(lines, ref_write((struct slice){bytes, length}, list, 2, out, sizeof out), number, second);
    bytes_of(text, wanted);
    if (memcmp(out, wanted, sizeof out) != 0) {
        printf("%s: other text written\n", lines);
        bad_cases++;
    }
}
