/* Request lines, spread over the space. */
#include "file_lines.h"

#include <stdio.h>

/* The values of request line `number`: the one of this number, or of an M sets from one value in the first line to all of
 * them in the last. */
static unsigned requested(const struct shape *shape, unsigned attribute, unsigned number, unsigned value)
{
    unsigned values = shape->values[attribute], set = 0;

    if (shape->letter[attribute] == 'A')
        return 1u << value;
    for (unsigned i = 0; i <= (values - 1) * number / (REQUESTS - 1); i++)
        set |= 1u << (7 * number + i) % values;
    return set;
}

static unsigned count_of(const struct shape *shape, unsigned attribute)
{
    return shape->letter[attribute] == 'A' ? shape->values[attribute] : (1u << shape->values[attribute]) - 1;
}

void make_requests(struct policy_file *file, const struct shape *shape)
{
    unsigned space = 1;

    for (unsigned i = 0; i < shape->attributes; i++)
        space *= count_of(shape, i);
    for (unsigned number = 0; number < REQUESTS; number++) {
        unsigned request = (space - 1) * number / (REQUESTS - 1), weight = space;
        uint8_t *at = file->request[number];
        for (unsigned i = 0; i < shape->attributes; i++) {
            weight /= count_of(shape, i);
            unsigned values = requested(shape, i, number, request / weight % count_of(shape, i));
            const char *before = i > 0 ? "\t" : "";
            for (unsigned value = 0; value < shape->values[i]; value++)
                if (values >> value & 1) {
                    at += snprintf((char *)at, 18, "%s%s", before, shape->value[i][value]);
                    before = ",";
                }
        }
        file->request_length[number] = (size_t)(at - file->request[number]);
    }
    file->requests = REQUESTS;
}
