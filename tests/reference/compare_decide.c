/* decide: request lines good and bad, and buffers of every fit for the obligations. */
#include "compare.h"

#include <stdio.h>
#include <stdlib.h>
#include <string.h>

static struct bytes request;
static struct decided wanted;
static const struct slice *text_left; /* what the library has in place of the file; NULL for the file itself */

/* How often requests held two values of an M or more or were refused at its field, requests with a comma were refused at an
 * A's field, permit and deny came with obligations, and these were too long for the buffer. */
static struct { unsigned long sets, bad_sets, bad_lists, obliged[2], too_long; } came_up;

/* As two numbers: the decision is compared by itself. */
static struct answer by_reference(const uint8_t *file, size_t length, uint8_t *out, size_t room)
{
    wanted = ref_decide(file, length, request.bytes, request.length, out, room);
    came_up.too_long += wanted.number == 11;
    return (struct answer){wanted.number, wanted.number == 0 ? wanted.length : wanted.second};
}

static jogimaduve_answer by_library(const uint8_t *file, size_t length, uint8_t *out, size_t room)
{
    uint8_t *line = exactly(request.bytes, request.length);
    if (text_left != NULL) {
        file = text_left->bytes;
        length = text_left->length;
    }
    jogimaduve_decision got = jogimaduve_decide(file, length, line, request.length, out, room);
    jogimaduve_answer answer = {got.number, got.number == 0 ? got.length : got.second};

    /* no answer of the reference: the request was written to, another decision, a length with a refusal */
    if (memcmp(line, request.bytes, request.length) != 0 || got.second != wanted.second || got.length != wanted.length)
        answer.number = UINT32_MAX;
    free(line);
    return answer;
}

/* Counts a request of an accepted policy by what the reference answers. No good field of an A has a comma. */
static void count_request(const struct policy *policy, struct decided answer)
{
    int comma = memchr(request.bytes, ',', request.length) != NULL;

    if (answer.number == 0) {
        came_up.sets += comma;
        if (answer.length > 0)
            came_up.obliged[answer.second]++;
    } else if (answer.number == 10 && answer.second > 0 && policy->attribute[answer.second - 1].letter == 'M')
        came_up.bad_sets++;
    else if (answer.number == 10 && answer.second > 0)
        came_up.bad_lists += comma;
}

struct answer compare_decide(const struct bytes *file, const struct policy *policy, int accepted)
{
    unsigned long before = differences;

    make_request(&request, policy, accepted && below(3) != 0);
    struct answer answer = compare_rooms("decide", file, 0, below(2) ? OBLIGATION_BYTES : below(20), by_reference,
                                         by_library);
    if (accepted)
        count_request(policy, wanted);
    if ((answer.number == 0 || answer.number == 11) && answer.second > 0)
        compare_rooms("decide", file, 5, answer.second, by_reference, by_library);
    if (differences > before)
        show_bytes("request", request.bytes, request.length);
    return answer;
}

struct answer compare_decide_left(const struct bytes *file, const struct policy *policy, struct slice left)
{
    text_left = &left;
    struct answer answer = compare_decide(file, policy, 1);
    text_left = NULL;
    return answer;
}

void compare_request(const struct bytes *file, const struct policy *policy, int number)
{
    unsigned long before = differences;

    make_request_of(&request, policy, number);
    compare_rooms("decide", file, 0, below(2) ? OBLIGATION_BYTES : below(20), by_reference, by_library);
    if (differences > before)
        show_bytes("request", request.bytes, request.length);
}

int requests_seen(void)
{
    printf("requests with two values of an M or more: %lu, refused at an M: %lu, at a list of an A: %lu;", came_up.sets,
           came_up.bad_sets, came_up.bad_lists);
    printf(" obligations with permit: %lu, with deny: %lu, too long for the buffer: %lu\n", came_up.obliged[PERMIT],
           came_up.obliged[DENY], came_up.too_long);
    return came_up.sets >= OFTEN && came_up.bad_sets >= OFTEN && came_up.bad_lists >= OFTEN
        && came_up.obliged[PERMIT] >= OFTEN && came_up.obliged[DENY] >= OFTEN && came_up.too_long >= OFTEN;
}
