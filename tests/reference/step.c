/* C-18: trimming as a held state, which is the text left so far, and a step that strikes one rule in it. */
#include "reference.h"

struct stepped ref_step(uint8_t *text, size_t len)
{
    static struct outcome outcomes[SPACE]; /* of this text, so of the file first read: no step changes any */
    struct policy policy;

    struct answer answer = read_policy(text, len, &policy);
    if (answer.number != 0)
        return (struct stepped){answer.number, answer.second, 0};
    find_outcomes(&policy, outcomes);
    int rule = next_needless(&policy, outcomes);
    if (rule < 0)
        return (struct stepped){0, (uint32_t)len, 0};
    policy.element[rule].struck = 1;
    answer = lend_left(&policy, text, len); /* whole before it is lent; the old text's end stays behind it */
    return (struct stepped){answer.number, answer.second, 1};
}
