/* Reading request lines. */
#include "plain_names.h"

#include <string.h>

/* The first value of this name, of those from `value` on; the number of values if there is none. */
static unsigned value_of(const struct attribute *attribute, unsigned value, const uint8_t *bytes, size_t length)
{
    struct name name = given_name(bytes, length);

    while (value < attribute->values && (attribute->length[value] != length || !same(name, attribute->value[value])))
        value++;
    return value;
}

/* The values of a request field; 0 if it is bad. Those of a set stand in declared order, so that each is looked for
 * behind the one before. */
static uint16_t values_of(const struct attribute *attribute, const uint8_t *at, size_t length)
{
    unsigned values = 0;

    for (unsigned value = 0;; value++) {
        const uint8_t *comma = attribute->sets ? memchr(at, ',', length) : NULL;
        size_t bytes = comma != NULL ? (size_t)(comma - at) : length;
        value = value_of(attribute, value, at, bytes);
        if (value == attribute->values)
            return 0;
        values |= 1u << value;
        if (comma == NULL)
            return (uint16_t)values;
        at += bytes + 1;
        length -= bytes + 1;
    }
}

jogimaduve_answer plain_read_request(const struct policy *policy, const uint8_t *line, size_t length,
                                     uint16_t values[LANES])
{
    const uint8_t *field[ATTRIBUTES + 1] = {line};
    unsigned fields = 1;

    /* The fields, each behind a tab; what follows one too many is not looked at. */
    for (const uint8_t *at = line, *end = line + length; fields <= policy->attributes; field[fields++] = ++at)
        if ((at = memchr(at, '\t', (size_t)(end - at))) == NULL)
            break;
    if (fields != policy->attributes)
        return (jogimaduve_answer){10, 0};
    for (unsigned i = 0; i < fields; i++) {
        const uint8_t *end = i + 1 < fields ? field[i + 1] - 1 : line + length;
        values[i] = values_of(&policy->attribute[i], field[i], (size_t)(end - field[i]));
        if (values[i] == 0)
            return (jogimaduve_answer){10, i + 1};
    }
    return (jogimaduve_answer){0, 0};
}
