/* Lines of a policy file, put behind those that it has. */
#include "file_lines.h"

#include <stdio.h>
#include <stdlib.h>
#include <string.h>

void put(struct policy_file *file, const char *bytes)
{
    size_t length = strlen(bytes);

    if (file->length + length > sizeof file->bytes) {
        fprintf(stderr, "%s: file too long\n", file->name);
        exit(1);
    }
    memcpy(file->bytes + file->length, bytes, length);
    file->length += length;
}

void attribute(struct policy_file *file, struct shape *shape, char letter, const char *name,
               const char *const *values, unsigned count)
{
    unsigned attribute = shape->attributes++;
    const char start[] = {letter, '\t', 0};

    shape->values[attribute] = count;
    shape->letter[attribute] = letter;
    if (letter == 'M' && file->sets_length == 0) {
        file->sets_length = strlen(name);
        memcpy(file->sets, name, file->sets_length);
    }
    put(file, start);
    put(file, name);
    for (unsigned i = 0; i < count; i++) {
        snprintf(shape->value[attribute][i], 17, "%s", values[i]);
        put(file, "\t");
        put(file, values[i]);
    }
    put(file, "\n");
}

void numbered_attribute(struct policy_file *file, struct shape *shape, char letter, unsigned number, unsigned values)
{
    char name[17], text[16][17];
    const char *pointers[16];

    snprintf(name, sizeof name, shape->long_names ? "attribute-no-%03u" : "a%u", number % 1000);
    for (unsigned i = 0; i < values; i++) {
        if (shape->long_names)
            snprintf(text[i], sizeof text[i], "value-%03u-of-%03u", i % 1000, number % 1000);
        else
            snprintf(text[i], sizeof text[i], "%c%c", (char)('a' + number), (char)('a' + i));
        pointers[i] = text[i];
    }
    attribute(file, shape, letter, name, pointers, values);
}

void even_space(struct policy_file *file, struct shape *shape, char letter, unsigned attributes, unsigned values,
                int long_names)
{
    memset(shape, 0, sizeof *shape);
    shape->long_names = long_names;
    for (unsigned i = 0; i < attributes; i++)
        numbered_attribute(file, shape, letter, i, values);
}

/* A tree line. A mask of 0 or of all values is written `*`. */
void element(struct policy_file *file, const struct shape *shape, char kind, unsigned depth, const char *name,
             const char *word, const unsigned targets[6])
{
    char start[64];

    if (kind == 'R') {
        file->rule_length = strlen(name);
        memcpy(file->rule, name, file->rule_length);
    }
    snprintf(start, sizeof start, "%c\t%u\t%s\t%s", kind, depth, name, word);
    put(file, start);
    for (unsigned i = 0; i < shape->attributes; i++) {
        unsigned all = (1u << shape->values[i]) - 1, mask = targets[i] & all;
        const char *before = "\t";
        if (mask == 0 || mask == all)
            put(file, "\t*");
        else
            for (unsigned value = 0; value < shape->values[i]; value++)
                if (mask >> value & 1) {
                    put(file, before);
                    put(file, shape->value[i][value]);
                    before = ",";
                }
    }
    put(file, "\n");
}

void numbered(struct policy_file *file, const struct shape *shape, char kind, unsigned depth, unsigned number,
              const char *word, const unsigned targets[6])
{
    char name[17];
    const char *long_name = kind == 'R' ? "rule-number-%04u" : kind == 'P' ? "policy-numbr%04u" : "policy-set--%04u";

    snprintf(name, sizeof name, shape->long_names ? long_name : "e%u", number);
    element(file, shape, kind, depth, name, word, targets);
}

unsigned random_below(uint64_t *state, unsigned limit)
{
    *state = *state * 6364136223846793005u + 1442695040888963407u;
    return (unsigned)(*state >> 33) % limit;
}

unsigned random_mask(uint64_t *state, unsigned values, unsigned bits)
{
    unsigned mask = 0;
    while (bits-- > 0)
        mask |= 1u << random_below(state, values);
    return mask;
}
