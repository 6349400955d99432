/* Random numbers, and text that is changed at places which are picked with them. */
#include "generate.h"

#include <string.h>

static uint64_t state;

void start_random(uint64_t seed)
{
    state = seed;
}

/* splitmix64: any seed will do, neighbours too. */
uint32_t below(uint32_t limit)
{
    state += 0x9e3779b97f4a7c15u;
    uint64_t z = state;
    z = (z ^ z >> 30) * 0xbf58476d1ce4e5b9u;
    z = (z ^ z >> 27) * 0x94d049bb133111ebu;
    z ^= z >> 31;
    return limit == 0 ? 0 : (uint32_t)(z >> 32) % limit;
}

int one_in(uint32_t many)
{
    return below(many) == 0;
}

void replace(struct bytes *text, size_t at, size_t length, const void *bytes, size_t count)
{
    if (text->length - length + count > sizeof text->bytes)
        return;
    memmove(text->bytes + at + count, text->bytes + at + length, text->length - at - length);
    memcpy(text->bytes + at, bytes, count);
    text->length = text->length - length + count;
}

void put(struct bytes *text, const char *string)
{
    replace(text, text->length, 0, string, strlen(string));
}

size_t pick_line(const struct bytes *file, const char *letters, size_t *length)
{
    uint32_t lines = 0;
    size_t start = 0;

    for (size_t i = 0, at = 0; i < file->length; i++)
        if (file->bytes[i] == '\n') {
            if ((*letters == 0 || (file->bytes[at] != 0 && strchr(letters, file->bytes[at]))) && one_in(++lines))
                start = at;
            at = i + 1;
        }
    for (*length = 0; start + *length < file->length && file->bytes[start + *length] != '\n'; ++*length)
        ;
    return start;
}

size_t field_of(const struct bytes *text, size_t line, size_t line_length, uint32_t number, size_t *length)
{
    size_t at = line, end = line + line_length;
    for (size_t i = line; i < end && number > 0; i++)
        if (text->bytes[i] == '\t') {
            at = i + 1;
            number--;
        }
    for (*length = 0; at + *length < end && text->bytes[at + *length] != '\t'; ++*length)
        ;
    return at;
}

size_t pick_field(const struct bytes *file, const char *letters, uint32_t number, size_t *length)
{
    size_t line_length, line = pick_line(file, letters, &line_length);
    return field_of(file, line, line_length, number, length);
}

void set_field(struct bytes *file, const char *letters, uint32_t number, const char *string)
{
    size_t length, at = pick_field(file, letters, number, &length);
    replace(file, at, length, string, strlen(string));
}

uint32_t count_values(const struct bytes *text, size_t line, size_t line_length)
{
    uint32_t tabs = 0;
    for (size_t i = 0; i < line_length; i++)
        tabs += text->bytes[line + i] == '\t';
    return tabs > 0 ? tabs - 1 : 0;
}
