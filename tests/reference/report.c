/* The report: segments (G), conflicts (C), struck rules (X) and kept rules (K). */
#include "reference.h"

static void put_name(struct text *text, const struct policy *policy, int place)
{
    put_bytes(text, policy->element[place].name.bytes, policy->element[place].name.length);
}

static void put_segments(struct text *text, const struct policy *policy, const struct outcome outcomes[SPACE])
{
    static uint64_t applying[SPACE]; /* for each request the elements that apply, bit 0 the first element */
    unsigned held[ATTRIBUTES];

    for (int request = 0; request < policy->space; request++) {
        values_of(policy, request, held);
        applying[request] = 0;
        for (int place = 0; place < policy->elements; place++)
            if (applies(policy, place, held))
                applying[request] |= (uint64_t)1 << place;
    }
    for (int request = 0; request < policy->space; request++) {
        int earlier = 0, count = 0;
        while (applying[earlier] != applying[request])
            earlier++;
        if (earlier < request)
            continue; /* told with the segment's first request */
        for (int later = request; later < policy->space; later++)
            count += applying[later] == applying[request];

        put_string(text, "G\t");
        put_number(text, request);
        put_string(text, "\t");
        put_number(text, count);
        put_string(text, "\t");
        put_string(text, decision_words[outcomes[request].decision]);
        const char *before = "\t";
        for (int place = 0; place < policy->elements; place++)
            if (applying[request] >> place & 1) {
                put_string(text, before);
                put_name(text, policy, place);
                before = ",";
            }
        put_string(text, applying[request] == 0 ? "\t-\n" : "\n");
    }
}

/* For each element and request: what the element gives if its parent applies, else not-applicable. A pair of children
 * conflicts where one of these is permit and the other deny. */
static uint8_t under_parent[ELEMENTS][SPACE];

static void fill_under_parent(const struct policy *policy)
{
    unsigned held[ATTRIBUTES];

    for (int request = 0; request < policy->space; request++) {
        values_of(policy, request, held);
        for (int place = 0; place < policy->elements; place++)
            under_parent[place][request] = applies(policy, policy->element[place].parent, held)
                ? (uint8_t)gives(policy, place, held) : NOT_APPLICABLE;
    }
}

/* The lowest request that shows a conflict, or the space if there is none. */
static int conflict_of(const struct policy *policy, int one, int other)
{
    int request = 0;
    for (; request < policy->space; request++) {
        uint8_t a = under_parent[one][request], b = under_parent[other][request];
        if ((a == PERMIT && b == DENY) || (a == DENY && b == PERMIT))
            break;
    }
    return request;
}

static void put_conflicts(struct text *text, const struct policy *policy)
{
    fill_under_parent(policy);
    for (int parent = 0; parent < policy->elements; parent++) {
        const struct element *element = &policy->element[parent];
        for (int i = 0; i < element->children; i++)
            for (int j = i + 1; j < element->children; j++) {
                int request = conflict_of(policy, element->child[i], element->child[j]);
                if (request == policy->space)
                    continue;
                put_string(text, "C\t");
                put_name(text, policy, parent);
                put_string(text, "\t");
                put_name(text, policy, element->child[i]);
                put_string(text, "\t");
                put_name(text, policy, element->child[j]);
                put_string(text, "\t");
                put_number(text, request);
                put_string(text, "\n");
            }
    }
}

static void put_rules(struct text *text, struct policy *policy, const struct outcome outcomes[SPACE])
{
    int order[ELEMENTS];
    int strikes = strike_needless(policy, outcomes, order);

    for (int i = 0; i < strikes; i++) {
        put_string(text, "X\t");
        put_name(text, policy, order[i]);
        put_string(text, "\n");
    }
    for (int place = 0; place < policy->elements; place++) {
        if (policy->element[place].kind != 'R' || policy->element[place].struck)
            continue;
        put_string(text, "K\t");
        put_name(text, policy, place);
        put_string(text, "\t");
        put_number(text, first_change(policy, place, outcomes));
        put_string(text, "\n");
    }
}

struct answer ref_report(const uint8_t *file, size_t len, uint8_t *out, size_t room)
{
    static struct outcome outcomes[SPACE];
    struct policy policy;
    struct text text = {NULL, 0, 0};

    struct answer answer = read_policy(file, len, &policy);
    if (answer.number != 0)
        return answer;
    find_outcomes(&policy, outcomes);
    put_segments(&text, &policy, outcomes);
    put_conflicts(&text, &policy);
    put_rules(&text, &policy, outcomes); /* last: it strikes rules, and the rest is told of the whole file */

    return lend_text(&text, out, room);
}
