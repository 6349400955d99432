/* Proposals for a file, each of which gets another answer. */
#include "files.h"

#include <string.h>

/* Where the last line starts, or the last rule's if only rules are looked for; its length, or 0 if there is none. */
static size_t last_line(const struct proposal *text, int rules, size_t *length)
{
    size_t found = 0;

    *length = 0;
    for (size_t start = 0, end; start < text->length; start = end) {
        const uint8_t *newline = memchr(text->bytes + start, '\n', text->length - start);
        end = (size_t)(newline - text->bytes) + 1;
        if (rules && text->bytes[start] != 'R')
            continue;
        found = start;
        *length = end - start;
    }
    return found;
}

static void leave_out_rule(struct proposal *text)
{
    size_t length, start = last_line(text, 1, &length);

    if (length == 0) {
        text->length = 0; /* no proposal */
        return;
    }
    text->length -= length;
    memmove(text->bytes + start, text->bytes + start + length, text->length - start);
}

/* Turns the case of the first letter of the last line's name, so that it is still the only one of its name. */
static void change_name(struct proposal *text)
{
    size_t length, at = last_line(text, 0, &length);

    for (int fields = text->bytes[at] == 'O' ? 1 : 2; fields > 0; at++)
        fields -= text->bytes[at] == '\t';
    text->bytes[at] ^= 'a' ^ 'A';
}

static void propose(struct proposal *text, const uint8_t *bytes, size_t length)
{
    memcpy(text->bytes, bytes, length);
    text->length = length;
}

void make_proposals(struct policy_file *file, const uint8_t *trimmed, size_t length)
{
    propose(&file->proposal[TRIMMED], trimmed, length);
    propose(&file->proposal[WHOLE], file->bytes, length < file->length ? file->length : 0);
    propose(&file->proposal[LESS], trimmed, length);
    leave_out_rule(&file->proposal[LESS]);
    propose(&file->proposal[CHANGED], trimmed, length);
    change_name(&file->proposal[CHANGED]);
}
