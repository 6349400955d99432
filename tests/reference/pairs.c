/* C-14: where two values of an M get another decision than one of them alone (D). */
#include "reference.h"

#include <stdlib.h>

int set_named(const struct policy *policy, struct slice name)
{
    for (int i = 0; i < policy->attributes; i++)
        if (policy->attribute[i].letter == 'M' && equal_names(policy->attribute[i].name, name))
            return i;
    return -1;
}

/* The number of the request that holds these values. */
static int number_of(const struct policy *policy, const unsigned held[ATTRIBUTES])
{
    int request = 0;

    for (int i = 0; i < policy->attributes; i++) {
        int number = 0;
        while (held_by(&policy->attribute[i], number) != held[i])
            number++;
        request = request * policy->attribute[i].count + number;
    }
    return request;
}

struct search {
    const struct policy *policy;
    int attribute;              /* the one named */
    unsigned earlier, later;    /* a pair of its values, each as a mask */
    unsigned held[ATTRIBUTES];  /* the choice of the others */
    int lines;
    struct pair *line;
};

static enum decision with(struct search *search, unsigned values)
{
    search->held[search->attribute] = values;
    return gives(search->policy, 0, search->held);
}

static void try_pair(struct search *search)
{
    enum decision earlier = with(search, search->earlier), later = with(search, search->later);
    enum decision both = with(search, search->earlier | search->later);

    if (both != earlier || both != later)
        search->line[search->lines++] = (struct pair){number_of(search->policy, search->held), both, earlier, later};
}

/* Tries the pair with each choice of the attributes from `next` on. */
static void choose(struct search *search, int next)
{
    if (next == search->policy->attributes) {
        try_pair(search);
    } else if (next == search->attribute) {
        choose(search, next + 1);
    } else {
        const struct attribute *attribute = &search->policy->attribute[next];
        for (int number = 0; number < attribute->count; number++) {
            search->held[next] = held_by(attribute, number);
            choose(search, next + 1);
        }
    }
}

static int by_request(const void *one, const void *other)
{
    return ((const struct pair *)one)->request - ((const struct pair *)other)->request;
}

int pairs_of(const struct policy *policy, int attribute, struct pair line[SPACE])
{
    struct search search = {.policy = policy, .attribute = attribute, .line = line};

    for (int later = 1; later < policy->attribute[attribute].values; later++)
        for (int earlier = 0; earlier < later; earlier++) {
            search.earlier = 1u << earlier;
            search.later = 1u << later;
            choose(&search, 0);
        }
    qsort(line, (size_t)search.lines, sizeof *line, by_request);
    return search.lines;
}

struct answer ref_pairs(const uint8_t *file, size_t len, const uint8_t *name, size_t name_len, uint8_t *out, size_t room)
{
    struct policy policy;
    struct pair line[SPACE];
    struct text text = {NULL, 0, 0};

    struct answer answer = read_policy(file, len, &policy);
    if (answer.number != 0)
        return answer;
    int attribute = set_named(&policy, (struct slice){name, name_len});
    if (attribute < 0)
        return (struct answer){13, 0};

    int lines = pairs_of(&policy, attribute, line);
    for (int i = 0; i < lines; i++) {
        enum decision decisions[] = {line[i].both, line[i].earlier, line[i].later};
        put_string(&text, "D\t");
        put_number(&text, line[i].request);
        for (int j = 0; j < 3; j++) {
            put_string(&text, "\t");
            put_string(&text, decision_words[decisions[j]]);
        }
        put_string(&text, "\n");
    }
    return lend_text(&text, out, room);
}
