/* Requests and decisions. */
#include "reference.h"

#include <string.h>

const char *const decision_words[4] = {
    [PERMIT] = "permit", [DENY] = "deny", [NOT_APPLICABLE] = "not-applicable", [INDETERMINATE] = "indeterminate",
};

/* The number of a set is the sum of 2 to the power of each value's number, less 1. */
unsigned held_by(const struct attribute *attribute, int number)
{
    return attribute->letter == 'M' ? (unsigned)number + 1 : 1u << number;
}

/* The first attribute weighs most. */
void values_of(const struct policy *policy, int request, unsigned held[ATTRIBUTES])
{
    for (int i = policy->attributes - 1; i >= 0; i--) {
        const struct attribute *attribute = &policy->attribute[i];
        held[i] = held_by(attribute, request % attribute->count);
        request /= attribute->count;
    }
}

/* Whether the request matches the element's own target: each field shares a value with what the request holds. */
int matches(const struct policy *policy, int place, const unsigned held[ATTRIBUTES])
{
    for (int i = 0; i < policy->attributes; i++)
        if ((policy->element[place].target[i] & held[i]) == 0)
            return 0;
    return 1;
}

/* Whether it also matches that of every element above. */
int applies(const struct policy *policy, int place, const unsigned held[ATTRIBUTES])
{
    if (place < 0)
        return 1; /* above the first element */
    return matches(policy, place, held) && applies(policy, policy->element[place].parent, held);
}

static enum decision combined(const struct policy *policy, const struct element *element, const unsigned held[ATTRIBUTES])
{
    int any[4] = {0};                         /* whether any child gives this decision */
    enum decision first = NOT_APPLICABLE;     /* the first child's decision that isn't not-applicable */
    enum decision the_match = NOT_APPLICABLE; /* decision of a child whose target matches, decide as it may */
    int matching = 0;

    for (int i = 0; i < element->children; i++) {
        int child = element->child[i];
        if (policy->element[child].struck)
            continue;
        enum decision decision = gives(policy, child, held);
        any[decision] = 1;
        if (first == NOT_APPLICABLE)
            first = decision;
        if (element->word == ONLY_ONE_APPLICABLE && matches(policy, child, held)) {
            matching++;
            the_match = decision;
        }
    }
    switch (element->word) {
    case DENY_OVERRIDES:
        return any[DENY] || any[INDETERMINATE] ? DENY : any[PERMIT] ? PERMIT : NOT_APPLICABLE;
    case PERMIT_OVERRIDES:
        return any[PERMIT] ? PERMIT : any[DENY] ? DENY : any[INDETERMINATE] ? INDETERMINATE : NOT_APPLICABLE;
    case FIRST_APPLICABLE:
        return first;
    default: /* only-one-applicable */
        return matching >= 2 ? INDETERMINATE : the_match;
    }
}

/* What the element itself decides, whatever stands above it. */
enum decision gives(const struct policy *policy, int place, const unsigned held[ATTRIBUTES])
{
    const struct element *element = &policy->element[place];

    if (!matches(policy, place, held))
        return NOT_APPLICABLE;
    if (element->kind == 'R')
        return element->word == EFFECT_PERMIT ? PERMIT : DENY;
    return combined(policy, element, held);
}

/* The mask of a request's field, or 0 for one that is no value of an A, no list of values of an M. A full list is one,
 * and there is no other way to write all values. */
static unsigned held_in(const struct attribute *attribute, struct slice field)
{
    if (attribute->letter == 'M')
        return mask_of_list(attribute, field, 0);
    int value = value_number(attribute, field);
    return value < 0 ? 0 : 1u << value;
}

/* A request line: fields parted by tabs. Its other bytes are not tested: they are in no value's name. */
static struct answer read_request(const struct policy *policy, struct slice line, unsigned held[ATTRIBUTES])
{
    int fields = 1;
    for (size_t i = 0; i < line.length; i++)
        if (line.bytes[i] == '\t' && fields <= ATTRIBUTES)
            fields++;
    if (fields != policy->attributes)
        return (struct answer){10, 0};

    size_t start = 0, end;
    for (int i = 0; i < policy->attributes; i++, start = end + 1) {
        for (end = start; end < line.length && line.bytes[end] != '\t'; end++)
            ;
        held[i] = held_in(&policy->attribute[i], (struct slice){line.bytes + start, end - start});
        if (held[i] == 0)
            return (struct answer){10, (uint32_t)i + 1};
    }
    return (struct answer){0, 0};
}

struct decided ref_decide(const uint8_t *file, size_t file_len, const uint8_t *request, size_t request_len, uint8_t *out,
                          size_t room)
{
    struct policy policy;
    struct outcome outcome;
    unsigned held[ATTRIBUTES] = {0};

    struct answer answer = read_policy(file, file_len, &policy);
    if (answer.number == 0)
        answer = read_request(&policy, (struct slice){request, request_len}, held);
    if (answer.number != 0)
        return (struct decided){answer.number, answer.second, 0};
    find_outcome(&policy, held, &outcome);
    if (outcome.length > room)
        return (struct decided){11, (uint32_t)outcome.length, 0};
    memcpy(out, outcome.obligations, outcome.length);
    return (struct decided){0, (uint32_t)outcome.decision, (uint32_t)outcome.length};
}
