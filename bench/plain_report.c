/* The report. */
#include "plain.h"
#include "plain_report.h"

#include <string.h>

/* The text, or its length alone while `bytes` is NULL. */
struct text { uint8_t *bytes; size_t length, end; };

static void put(struct text *text, const void *bytes, size_t length)
{
    if (text->bytes != NULL)
        memcpy(text->bytes + text->length, bytes, length);
    text->length += length;
}

static void put_number(struct text *text, unsigned number, char end)
{
    char digits[8];
    size_t at = sizeof digits;

    digits[--at] = end;
    do
        digits[--at] = (char)('0' + number % 10);
    while ((number /= 10) != 0);
    put(text, digits + at, sizeof digits - at);
}

static void put_name(struct text *text, const struct element *element, char end)
{
    put(text, element->label, element->length);
    put(text, &end, 1);
}

/* Names parted by commas. The length is counted from the labels' lengths, bit by bit, for all elements at once. */
static void put_names(struct text *text, const struct report *report, const struct policy *policy, uint64_t elements)
{
    if (text->bytes == NULL) {
        for (int i = 0; i < 5; i++)
            text->length += (size_t)__builtin_popcountll(elements & report->label_bits[i]) << i;
        return;
    }
    for (; elements != 0; elements &= elements - 1) {
        const struct element *element = &policy->element[lowest(elements)];
        if (text->end - text->length >= sizeof element->label) {
            memcpy(text->bytes + text->length, element->label, sizeof element->label); /* the rest is written over */
            text->length += element->length + 1u;
        } else
            put(text, element->label, element->length + 1u);
    }
    text->bytes[text->length - 1] = '\n'; /* for the last comma */
}

static void put_segments(struct text *text, const struct report *report, const struct policy *policy)
{
    for (unsigned i = 0; i < report->segments; i++) {
        unsigned request = report->first[i];
        struct gives decided = report->decided[request / 64];
        uint64_t here = bit((int)(request % 64)), applying = report->applying[request];

        put(text, "G\t", 2);
        put_number(text, request, '\t');
        put_number(text, report->count[i], '\t');
        if (decided.permit & here)
            put(text, "permit\t", 7);
        else if (decided.deny & here)
            put(text, "deny\t", 5);
        else if (decided.indeterminate & here)
            put(text, "indeterminate\t", 14);
        else
            put(text, "not-applicable\t", 15);
        if (applying == 0)
            put(text, "-\n", 2);
        else
            put_names(text, report, policy, applying);
    }
}

static void put_conflicts(struct text *text, const struct report *report, const struct policy *policy)
{
    /* By parents, then by earlier child. A set's children don't stand in one run. */
    for (unsigned parent = 0; parent < policy->elements; parent++)
        for (unsigned place = parent + 1; place < policy->elements; place++) {
            if (policy->element[place].parent != parent)
                continue;
            for (uint64_t left = report->conflicting[place]; left != 0; left &= left - 1) {
                int later = lowest(left);
                put(text, "C\t", 2);
                put_name(text, &policy->element[parent], '\t');
                put_name(text, &policy->element[place], '\t');
                put_name(text, &policy->element[later], '\t');
                put_number(text, report->conflict[place][later], '\n');
            }
        }
}

static void put_rules(struct text *text, const struct report *report, const struct policy *policy)
{
    const struct trimming *trimming = &report->trimming;

    for (unsigned i = 0; i < trimming->strikes; i++) {
        put(text, "X\t", 2);
        put_name(text, &policy->element[trimming->struck[i]], '\n');
    }
    for (uint64_t left = trimming->kept; left != 0; left &= left - 1) {
        int rule = lowest(left);
        put(text, "K\t", 2);
        put_name(text, &policy->element[rule], '\t');
        put_number(text, report->need[rule], '\n');
    }
}

static void put_report(struct text *text, const struct report *report, const struct policy *policy)
{
    put_segments(text, report, policy);
    put_conflicts(text, report, policy);
    put_rules(text, report, policy);
}

jogimaduve_answer plain_report(const uint8_t *file, size_t file_length, uint8_t *buffer, size_t buffer_length)
{
    struct policy policy;
    struct report report;
    struct text text = {NULL, 0, 0}; /* a refusal leaves the buffer alone, so the length is found first */

    jogimaduve_answer answer = plain_read_policy(&policy, file, file_length);
    if (answer.number != 0)
        return answer;
    plain_look(&report, &policy);
    put_report(&text, &report, &policy);
    if (text.length > buffer_length)
        return (jogimaduve_answer){11, (uint32_t)text.length};
    text = (struct text){buffer, 0, text.length};
    put_report(&text, &report, &policy);
    return (jogimaduve_answer){0, (uint32_t)text.length};
}
