/* join: pairs of files that are made for it, each input with a mate of its own, pairs that are refused. */
#include "compare.h"

#include <stdlib.h>
#include <string.h>

static const struct joining *joined; /* whose first file is the one that is compared */

static struct answer by_reference(const uint8_t *file, size_t length, uint8_t *out, size_t room)
{
    return ref_join(file, length, joined->second.bytes, joined->second.length, joined->word.bytes, joined->word.length, out,
                    room);
}

/* A second file that the first starts with may lie in the same memory. */
static jogimaduve_answer by_library(const uint8_t *file, size_t length, uint8_t *out, size_t room)
{
    const struct bytes *second = &joined->second, *word = &joined->word;
    uint8_t *copy = exactly(second->bytes, second->length), *spelt = exactly(word->bytes, word->length);
    int starts_so = second->length <= length && memcmp(second->bytes, file, second->length) == 0;

    jogimaduve_answer answer = jogimaduve_join(file, length, starts_so && one_in(2) ? file : copy, second->length, spelt,
                                               word->length, out, room);
    if (memcmp(copy, second->bytes, second->length) != 0 || memcmp(spelt, word->bytes, word->length) != 0)
        answer.number = UINT32_MAX; /* no answer of the reference: they were written to */
    free(copy);
    free(spelt);
    return answer;
}

/* Every request of a small space. The text is the library's: it is the reference's too. */
static void compare_requests(size_t length)
{
    static struct bytes text;
    static struct policy file[2], policy;

    text.length = length;
    by_library(joined->first.bytes, joined->first.length, text.bytes, length);
    if (read_policy(text.bytes, length, &policy).number != 0)
        return; /* a difference, which was told */
    read_policy(joined->first.bytes, joined->first.length, &file[0]);
    read_policy(joined->second.bytes, joined->second.length, &file[1]);
    count_joined(file, &policy, length);
    if (policy.space > 256 || (policy.space > 32 && !one_in(8)))
        return;
    int number = compare_joined(&text, &policy, &file[0], &file[1]);
    if (number >= 0)
        difference("a request of the joined text", (struct answer){0, (uint32_t)number}, (jogimaduve_answer){0, 0}, &text);
}

static void compare_joining(const struct joining *joining)
{
    unsigned long before = differences;

    joined = joining;
    struct answer answer = compare_rooms("join", &joining->first, 5, below(2) ? FILE_BYTES : below(64), by_reference,
                                         by_library);
    count_joining(joining, answer);
    if (answer.number == 0 || answer.number == 11)
        compare_requests(answer.second);
    if (differences > before) {
        show_bytes("second file", joining->second.bytes, joining->second.length);
        show_bytes("word", joining->word.bytes, joining->word.length);
    }
}

static void exchange(struct joining *joining)
{
    static struct bytes file;

    file = joining->first;
    joining->first = joining->second;
    joining->second = file;
}

void compare_join(const struct bytes *file, const struct policy *policy, int accepted)
{
    static struct joining joining;

    make_joining(&joining);
    joining.first = *file;
    if (one_in(8))
        joining.second = *file;
    compare_joining(&joining);
    exchange(&joining);
    compare_joining(&joining);
    if (!accepted)
        return;
    joining.first = *file;
    make_mate(&joining.second, policy);
    compare_joining(&joining);
    if (one_in(2)) {
        damage(&joining.second);
        exchange(&joining);
        compare_joining(&joining);
    }
}

void compare_made_joining(void)
{
    static struct joining joining;

    for (int i = 0; i < 3; i++) {
        make_joining(&joining);
        compare_joining(&joining);
    }
    if (one_in(4)) {
        exchange(&joining);
        compare_joining(&joining);
    }
    if (!one_in(6))
        return;
    make_long_joining(&joining);
    compare_joining(&joining);
    damage(one_in(2) ? &joining.first : &joining.second);
    compare_joining(&joining);
}
