/* C-17: trimming in two operations, one that shows the next rule and one that strikes a rule by its name. */
#include "reference.h"

static struct outcome outcomes[SPACE]; /* of the whole file */

struct answer ref_next_rule(const uint8_t *file, size_t len, uint8_t *out, size_t room)
{
    struct policy policy;
    struct text text = {NULL, 0, 0};

    struct answer answer = read_policy(file, len, &policy);
    if (answer.number != 0)
        return answer;
    find_outcomes(&policy, outcomes);
    int rule = next_needless(&policy, outcomes);
    if (rule >= 0)
        put_bytes(&text, policy.element[rule].name.bytes, policy.element[rule].name.length);
    return lend_text(&text, out, room); /* no name is empty: a text of no bytes says that there is none */
}

int element_named(const struct policy *policy, struct slice name)
{
    for (int place = 0; place < policy->elements; place++)
        if (equal_names(policy->element[place].name, name))
            return place;
    return -1;
}

struct answer ref_strike(const uint8_t *file, size_t len, const uint8_t *name, size_t name_len, uint8_t *out, size_t room)
{
    struct policy policy;

    struct answer answer = read_policy(file, len, &policy);
    if (answer.number != 0)
        return answer;
    int rule = element_named(&policy, (struct slice){name, name_len});
    if (rule < 0 || policy.element[rule].kind != 'R')
        return (struct answer){15, 0};
    find_outcomes(&policy, outcomes);
    if (first_change(&policy, rule, outcomes) < policy.space)
        return (struct answer){15, 0};
    policy.element[rule].struck = 1;
    return lend_left(&policy, out, room);
}
