/* Texts, and lending them out. */
#include "reference.h"

#include <stdio.h>
#include <stdlib.h>
#include <string.h>

void put_bytes(struct text *text, const void *bytes, size_t length)
{
    if (text->length + length > text->room) {
        text->room = 2 * (text->length + length);
        text->bytes = realloc(text->bytes, text->room);
        if (text->bytes == NULL)
            abort();
    }
    memcpy(text->bytes + text->length, bytes, length);
    text->length += length;
}

void put_string(struct text *text, const char *string)
{
    put_bytes(text, string, strlen(string));
}

void put_number(struct text *text, int number)
{
    char digits[16];
    put_bytes(text, digits, (size_t)sprintf(digits, "%d", number));
}

struct answer lend_text(struct text *text, uint8_t *out, size_t room)
{
    struct answer answer = {text->length > room ? 11 : 0, (uint32_t)text->length};

    if (answer.number == 0 && text->length > 0)
        memcpy(out, text->bytes, text->length);
    free(text->bytes);
    return answer;
}
