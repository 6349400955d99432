/* Request lines, good and bad: a value of each A, a set of values of each M. */
#include "generate.h"

static void put_value(struct bytes *text, const struct attribute *attribute, uint32_t value)
{
    replace(text, text->length, 0, attribute->value[value].bytes, attribute->value[value].length);
}

/* The values of a mask in declared order. */
static void put_mask(struct bytes *text, const struct attribute *attribute, uint32_t mask)
{
    const char *before = "";

    for (uint32_t value = 0; value < (uint32_t)attribute->values; value++)
        if (mask >> value & 1) {
            put(text, before);
            put_value(text, attribute, value);
            before = ",";
        }
}

/* Any set, a small one, one value, or all of them, which no target may list. */
static uint32_t any_set(const struct attribute *attribute)
{
    uint32_t values = (uint32_t)attribute->values, all = (1u << values) - 1, one = 1u << below(values);

    switch (below(4)) {
    case 0: return 1 + below(all);
    case 1: return one | 1u << below(values);
    case 2: return one_in(2) && one != all ? all & ~one : all;
    default: return one;
    }
}

static void put_good(struct bytes *text, const struct attribute *attribute)
{
    put_mask(text, attribute, attribute->letter == 'M' ? any_set(attribute) : 1u << below((uint32_t)attribute->values));
}

/* Values in any order, perhaps one of them twice but for case, `*`, a name that is no value or an empty piece. For an M
 * such a list can be good; for an A only one that is a single value. */
static void put_pieces(struct bytes *text, const struct attribute *attribute)
{
    static const char *const others[] = {"*", "", "nothing", "A", "-"};
    uint32_t values = (uint32_t)attribute->values, pieces = 1 + below(4), other = one_in(2) ? below(pieces) : pieces;
    uint32_t value = below(values);

    for (uint32_t i = 0; i < pieces; i++) {
        size_t here = text->length;
        put(text, i > 0 ? "," : "");
        if (i == other)
            put(text, others[below(5)]);
        else
            put_value(text, attribute, value);
        if (one_in(2))
            turn_case(text->bytes + here, text->length - here);
        value = one_in(3) ? value : below(values);
    }
}

/* A good set that is damaged in one way, or a list in place of an A's value. */
static void put_bad(struct bytes *text, const struct attribute *attribute)
{
    uint32_t values = (uint32_t)attribute->values, low = below(values), high = low + below(values - low);

    switch (below(9)) {
    case 0: put(text, "*"); break;
    case 1: break; /* an empty field */
    case 2: put(text, ","); put_good(text, attribute); break;
    case 3: put_good(text, attribute); put(text, ","); break;
    case 4: put_value(text, attribute, low); put(text, ",,"); put_value(text, attribute, high); break;
    case 5: put_value(text, attribute, high); put(text, ","); put_value(text, attribute, low); break; /* or twice */
    case 6: put_mask(text, attribute, any_set(attribute)); break; /* good for an M */
    default: put_pieces(text, attribute); break;
    }
}

/* Any damage to the line as bytes. */
static void damage_request(struct bytes *request)
{
    uint8_t byte = tricky_byte();
    uint32_t at = below((uint32_t)request->length + 1);
    size_t length, field = field_of(request, 0, request->length, below(6), &length);

    switch (below(10)) {
    case 0: put(request, one_in(2) ? "\n" : "\t"); break;
    case 1: request->length = 0; break;
    case 2: request->length = at; break;
    case 3: replace(request, at, 0, &byte, 1); break;
    case 4: replace(request, at, at < request->length, &byte, 1); break;
    case 5: replace(request, at, at < request->length, "", 0); break;
    case 6: put(request, "\tx\tx\tx\tx\tx\tx\tx"); break;
    case 7: request->bytes[at] ^= (uint8_t)(one_in(2) ? CASE_BIT : 1 << below(8)); break; /* fine in a letter */
    case 8: byte = byte_beside_letters(); replace(request, at, at < request->length, &byte, 1); break;
    default: replace(request, field, length, "*", byte < 64); break; /* another field, or an empty one */
    }
}

void make_request(struct bytes *request, const struct policy *policy, int good)
{
    int bad_fields = !good && one_in(2);
    uint32_t bad = below((uint32_t)policy->attributes);

    request->length = 0;
    for (int i = 0; i < policy->attributes; i++) {
        const struct attribute *attribute = &policy->attribute[i];
        put(request, i > 0 ? "\t" : "");
        if (bad_fields && ((uint32_t)i == bad || one_in(8)))
            put_bad(request, attribute);
        else
            put_good(request, attribute);
    }
    if (one_in(2))
        turn_case(request->bytes, request->length);
    if (!good && !bad_fields)
        damage_request(request);
}

void make_request_of(struct bytes *request, const struct policy *policy, int number)
{
    unsigned held[ATTRIBUTES];

    values_of(policy, number, held);
    request->length = 0;
    for (int i = 0; i < policy->attributes; i++) {
        put(request, i > 0 ? "\t" : "");
        put_mask(request, &policy->attribute[i], held[i]);
    }
}
