/* A policy that was read, for the files of plain C alone. */
#ifndef PLAIN_POLICY_H
#define PLAIN_POLICY_H

#include "jogimaduve.h"

#include <stdbool.h>

enum { FILE_BYTES = 16384, NAME_BYTES = 16, ATTRIBUTES = 6, VALUES = 16, SPACE = 4096, ELEMENTS = 64 };
enum { OBLIGATIONS = 2 }; /* of an element */
enum { LANES = 8 }; /* of a target or request: the attributes, rounded up to whole words */

enum word {
    EFFECT_PERMIT, EFFECT_DENY,
    DENY_OVERRIDES, PERMIT_OVERRIDES, FIRST_APPLICABLE, ONLY_ONE_APPLICABLE,
    WORDS
};

/* A name's bytes with zeros behind, so that two names are compared as two numbers each. */
struct name { uint64_t half[2]; };

struct attribute {
    struct name name, value[VALUES], spelled[VALUES]; /* in small letters, but as spelled for targets */
    uint8_t name_length, values, length[VALUES];
    bool sets;      /* an M: a request has a set of its values, not one */
    uint16_t count; /* of values, or of sets */
};

struct element {
    uint8_t kind, word, parent, length;
    uint8_t label[NAME_BYTES + 1]; /* the name, then a comma */
    uint16_t line, line_length;    /* newline included; with the lines of its obligations */
    uint16_t target[LANES];        /* of an A met with those above; an M can share one value here and another above */
};

struct obligation {
    uint8_t place, word, length;   /* of its element; permit or deny; of the label */
    uint8_t label[NAME_BYTES + 1]; /* the name, then a newline */
    struct name name;              /* in small letters */
};

struct policy {
    unsigned attributes, space, elements, obligations;
    struct attribute attribute[ATTRIBUTES];
    struct element element[ELEMENTS];
    struct name name[ELEMENTS]; /* in small letters */
    struct obligation obligation[OBLIGATIONS * ELEMENTS]; /* in file order */
    uint8_t text[FILE_BYTES + 2 * NAME_BYTES]; /* the file, with room behind so that names may be loaded whole */
};

jogimaduve_answer plain_read_policy(struct policy *policy, const uint8_t *file, size_t length);

/* Only a word of this kind of element; WORDS if there is none. */
unsigned plain_word_of(const uint8_t *field, size_t length, uint8_t kind);

/* Sets in each lane the bits of the values that the request has. */
jogimaduve_answer plain_read_request(const struct policy *policy, const uint8_t *line, size_t length,
                                     uint16_t values[LANES]);

#endif
