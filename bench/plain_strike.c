/* Striking one rule: the one that is named, or in place the one that trimming strikes next. */
#include "plain.h"
#include "plain_names.h"
#include "plain_space.h"

#include <string.h>

/* The rule of this name, or -1. */
static int find_rule(const struct policy *policy, const uint8_t *bytes, size_t length)
{
    struct name name = given_name(bytes, length);

    for (unsigned place = 0; place < policy->elements; place++) {
        const struct element *element = &policy->element[place];
        if (element->kind == 'R' && element->length == length && same(name, policy->name[place]))
            return (int)place;
    }
    return -1;
}

/* Whether a request needs the rule. Only the blocks to which it applies are looked at. */
static bool is_needed(const struct policy *policy, int rule)
{
    struct trimming trimming;
    struct block block;

    plain_start_trimming(&trimming, policy);
    for (unsigned i = 0; i < trimming.blocks; i++) {
        if (!(trimming.active[i] & bit(rule)))
            continue;
        plain_look_at(&trimming, policy, i, &block);
        if (trimming.needed[i] & bit(rule))
            return true;
    }
    return policy->obligations > 0 && plain_needs_obligations(&trimming, policy, rule);
}

jogimaduve_answer plain_strike(const uint8_t *file, size_t file_length, const uint8_t *rule, size_t rule_length,
                               uint8_t *buffer, size_t buffer_length)
{
    struct policy policy;

    jogimaduve_answer answer = plain_read_policy(&policy, file, file_length);
    if (answer.number != 0)
        return answer;
    int place = find_rule(&policy, rule, rule_length);
    if (place < 0 || is_needed(&policy, place))
        return (jogimaduve_answer){15, 0};
    size_t line = policy.element[place].line, line_length = policy.element[place].line_length;
    size_t length = file_length - line_length;
    if (length > buffer_length)
        return (jogimaduve_answer){11, (uint32_t)length};
    memcpy(buffer, file, line);
    memcpy(buffer + line, file + line + line_length, length - line);
    return (jogimaduve_answer){0, (uint32_t)length};
}

jogimaduve_stepped plain_step(uint8_t *text, size_t text_length)
{
    struct policy policy;
    int rule;

    jogimaduve_answer answer = plain_find_needless(&policy, text, text_length, &rule);
    if (answer.number != 0)
        return (jogimaduve_stepped){answer.number, answer.second, 0};
    if (rule < 0)
        return (jogimaduve_stepped){0, (uint32_t)text_length, 0};
    size_t line = policy.element[rule].line, line_length = policy.element[rule].line_length;
    size_t length = text_length - line_length;
    memmove(text + line, text + line + line_length, length - line);
    return (jogimaduve_stepped){0, (uint32_t)length, 1};
}
