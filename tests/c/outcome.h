/* What the requests of a policy file get, worked out by jogimaduve_decide. */
#ifndef OUTCOME_H
#define OUTCOME_H

#include "check.h"
#include "space.h"

struct outcome { uint32_t decision, length; uint8_t obligations[JOGIMADUVE_LONGEST_OBLIGATIONS]; };

/* By the number of the request; 0 if there is no such request. */
static int outcome_of(const uint8_t *file, size_t size, long number, struct outcome *outcome) {
    long held[ATTRIBUTES];
    char request[REQUEST_MOST];
    if (!held_by(number, held)) return 0;
    put_request(held, request);
    jogimaduve_decision got = jogimaduve_decide(file, size, (const uint8_t *)request, strlen(request), outcome->obligations, sizeof outcome->obligations);
    if (got.number != 0) check(0, request, __LINE__);
    outcome->decision = got.second;
    outcome->length = got.length;
    return 1;
}

static int same_outcome(const struct outcome *one, const struct outcome *other) {
    return one->decision == other->decision && one->length == other->length && memcmp(one->obligations, other->obligations, one->length) == 0;
}

#endif
