/* A request by its numbers, as the crate stepping takes it: at most six attributes, each number below its count. */
#ifndef REQUEST_H
#define REQUEST_H

#include <stdbool.h>
#include <stddef.h>

#define ATTRIBUTES 6

struct request {
    bool several[ATTRIBUTES];
    size_t values[ATTRIBUTES];
    size_t len;
};

struct counts {
    size_t counts[ATTRIBUTES];
};

/* the next request: of the library, and in other forms */
typedef struct request step(struct request q, struct counts c);
step next_request, by_quotient, stopping_early, comparing, by_truth, short_cut, by_size, by_label;

#endif
