/* C-20, worked out by hand: 64 elements and 65, texts of 16,384 bytes and one more; and what the cases are told with. */
#include "cases_join.h"

#include <stdio.h>
#include <string.h>

struct answer join_in(const char *first, const char *second, const char *word, uint8_t *out, size_t room)
{
    static uint8_t one[FILE_BYTES + 2], other[FILE_BYTES + 2], spelt[100];
    return ref_join(one, bytes_of(first, one), other, bytes_of(second, other), spelt, bytes_of(word, spelt), out, room);
}

static void expect_join(const char *first, const char *second, const char *word, size_t room, struct answer wanted,
                        const char *text)
{
    static uint8_t bytes[JOINED_BYTES], out[JOINED_BYTES];

    memset(bytes, 7, sizeof bytes);
    memset(out, 7, sizeof out);
    if (wanted.number == 0)
        bytes_of(text, bytes);
    struct answer answer = join_in(first, second, word, out, room);
    if (answer.number == wanted.number && answer.second == wanted.second && memcmp(bytes, out, sizeof out) == 0)
        return;
    printf("%s, second %s, %s: %lu %lu\n", first, second, word, (unsigned long)answer.number, (unsigned long)answer.second);
    bad_cases++;
}

void joins(const char *first, const char *second, const char *word, const char *text)
{
    uint32_t needed = (uint32_t)strlen(text);

    expect_join(first, second, word, needed, (struct answer){0, needed}, text);
    expect_join(first, second, word, JOINED_BYTES, (struct answer){0, needed}, text);
    expect_join(first, second, word, needed - 1, (struct answer){11, needed}, text);
    expect_join(first, second, word, 0, (struct answer){11, needed}, text);
}

void refuses_join(const char *first, const char *second, const char *word, uint32_t number, uint32_t line)
{
    expect_join(first, second, word, 0, (struct answer){number, line}, "");
    expect_join(first, second, word, JOINED_BYTES, (struct answer){number, line}, "");
}

/* So many policies below a set, with an obligation each if so wanted. */
static size_t put_policies(char *file, char name, int policies, const char *obligation)
{
    size_t length = (size_t)sprintf(file, "A x a b\nS 0 %c " FA " *\n", name);

    for (int i = 1; i < policies; i++)
        length += (size_t)sprintf(file + length, "P 1 %c%d " FA " a\n%s", name, i, obligation);
    return length;
}

/* 64 elements and 65, `joined` among them; obligations are none. */
static void elements(void)
{
    static char one[FILE_BYTES], other[FILE_BYTES], text[FILE_BYTES];

    for (int first = 1; first <= 62; first += 61) {
        put_policies(one, 'p', first, "O o deny\n");
        size_t length = put_policies(other, 'q', 63 - first, "O o deny\n");
        size_t at = (size_t)sprintf(text, "A x a b\nS 0 joined " OO " *\nS 1 p " FA " *\n");
        for (int i = 1; i < first; i++)
            at += (size_t)sprintf(text + at, "P 2 p%d " FA " a\nO o deny\n", i);
        at += (size_t)sprintf(text + at, "S 1 q " FA " *\n");
        for (int i = 1; i < 63 - first; i++)
            at += (size_t)sprintf(text + at, "P 2 q%d " FA " a\nO o deny\n", i);
        joins(one, other, OO, text);
        uint32_t last = (uint32_t)(2 + 2 * 63 - 2); /* its last line: each policy but the two first elements has two */
        sprintf(other + length, "P 1 more " FA " a\nO o deny\n");
        refuses_join(one, other, OO, 5, last + 1);
        sprintf(other + length, "P 1 P " FA " a\n");
        refuses_join(one, other, OO, 4, last + 1);
        sprintf(other + length, "S 1 s " FA " a\nS 2 t " FA " a\n");
        refuses_join(one, other, OO, 5, last + 1);
    }
    put_policies(one, 'p', 64, "");
    refuses_join(one, "A x a b\nP 0 q " FA " *\n", OO, 5, 66);
    refuses_join("A x a b\nP 0 q " FA " *\n", one, OO, 5, 66);
    refuses_join("A x a b\nP 0 p62 " FA " *\n", one, OO, 4, 66); /* 4 is lower than 5 */
}

/* Values of 16 bytes, each behind the byte given but for the first. */
static size_t put_values(char *text, int count, char before)
{
    size_t length = 0;

    for (int value = 0; value < count; value++) {
        if (value > 0)
            text[length++] = before;
        length += (size_t)sprintf(text + length, "0123456789abcde%c", 'a' + value);
    }
    return length;
}

/* A policy with so many rules, each of over 500 bytes. */
static size_t put_long(char *file, char name, int rules)
{
    size_t length = 0;

    for (char attribute = 'x'; attribute <= 'y'; attribute++) {
        length += (size_t)sprintf(file + length, "A %c ", attribute);
        length += put_values(file + length, 16, ' ');
        length += (size_t)sprintf(file + length, "\n");
    }
    length += (size_t)sprintf(file + length, "P 0 %c " FA " * *\n", name);
    for (int rule = 0; rule < rules; rule++) {
        length += (size_t)sprintf(file + length, "R 1 %c-%d permit ", name, rule);
        length += put_values(file + length, 15, ',');
        file[length++] = ' ';
        length += put_values(file + length, 15, ',');
        length += (size_t)sprintf(file + length, "\n");
    }
    return length;
}

/* More rules, up to this size: short ones, whose names find it. */
static void fill(char *file, char name, size_t length, size_t size)
{
    for (size_t lines = (size - length + 29) / 30; lines > 0; lines--) {
        int width = (int)((size - length) / lines) - (int)strlen("R 1 p deny * *\n");
        length += (size_t)sprintf(file + length, "R 1 %c%0*d deny * *\n", name, width, (int)lines);
    }
}

/* The joined text has the line of `joined` more than both files, and the second's attribute lines less: so much with the
 * second as it is made here, that it is a byte short of 16,384, has so many, and one more. */
static void sizes(void)
{
    static char one[FILE_BYTES + 2], other[FILE_BYTES + 2], longer[FILE_BYTES + 2];
    static uint8_t out[JOINED_BYTES];
    size_t first = put_long(one, 'p', 10), second = put_long(other, 'q', 19), lines = put_long(longer, 'q', 0);
    size_t without = first + second - (lines - strlen("P 0 q " FA " * *\n")) + strlen("S 0 joined " DO " * *\n");

    for (uint32_t size = FILE_BYTES - 1; size <= FILE_BYTES + 1; size++) {
        fill(other, 'q', second, second + size - without);
        struct answer answer = join_in(one, other, DO, out, sizeof out);
        if (size > FILE_BYTES ? answer.number != 1 || answer.second != 0 : answer.number != 0 || answer.second != size) {
            printf("%lu bytes: %lu %lu\n", (unsigned long)size, (unsigned long)answer.number, (unsigned long)answer.second);
            bad_cases++;
        }
        refuses_join(one, other, "deny", 7, 3); /* before 1 */
        other[lines - strlen("q " FA " * *\n")] = 'P'; /* a name of both: behind 1 */
        refuses_join(one, other, DO, size > FILE_BYTES ? 1 : 4, size > FILE_BYTES ? 0 : 15);
        other[lines - strlen("q " FA " * *\n")] = 'q';
    }
    memset(longer, '\n', FILE_BYTES + 1);
    refuses_join(longer, one, DO, 1, 0);
    refuses_join(one, longer, DO, 1, 0);
    longer[FILE_BYTES] = 0;
    refuses_join(longer, one, DO, 2, 1);
    refuses_join(one, longer, DO, 2, 1);
}

void cases_of_large_joining(void)
{
    elements();
    sizes();
}
