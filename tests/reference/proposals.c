/* Proposals for a file: its lines without some of the rules, as an optimiser would leave them out, well or badly; and the
 * same with a line changed, most often so that it is still a good file. */
#include "generate.h"

#include <stdio.h>
#include <string.h>

#define ONE_OF(strings) ((strings)[below(sizeof(strings) / sizeof *(strings))])

void take_original(struct original *original, const struct bytes *file)
{
    read_policy(file->bytes, file->length, &original->policy);
    find_outcomes(&original->policy, original->outcomes);
    original->strikes = strike_needless(&original->policy, original->outcomes, original->order);
}

static void leave_out_none(struct policy *policy)
{
    for (int place = 0; place < policy->elements; place++)
        policy->element[place].struck = 0;
}

static void leave_out_some(struct policy *policy)
{
    uint32_t often = 1 + below(10);

    for (int place = 0; place < policy->elements; place++)
        policy->element[place].struck = policy->element[place].kind == 'R' && below(10) < often;
}

static void trim_as_we_do(struct original *original)
{
    leave_out_none(&original->policy);
    for (int i = 0; i < original->strikes; i++)
        original->policy.element[original->order[i]].struck = 1;
}

/* Goes over the rules in another order, such as from the top, until none is needless or, as some would, just once. */
static void trim_otherwise(struct original *original)
{
    struct policy *policy = &original->policy;
    int first = one_in(2) ? 0 : (int)below(ELEMENTS), step = one_in(2) ? 1 : 1 + 2 * (int)below(ELEMENTS / 2);
    int just_once = one_in(3), strikes;

    leave_out_none(policy);
    do {
        strikes = 0;
        for (int i = 0; i < ELEMENTS; i++) { /* an odd step leads to each place once */
            int place = (first + i * step) % ELEMENTS;
            if (place >= policy->elements || policy->element[place].kind != 'R' || policy->element[place].struck
                || first_change(policy, place, original->outcomes) < policy->space)
                continue;
            policy->element[place].struck = 1;
            strikes++;
        }
    } while (strikes > 0 && !just_once);
}

/* Leaves out one more rule, or puts one back. */
static void turn_rule(struct policy *policy, int struck)
{
    uint32_t rules = 0;
    int picked = -1;

    for (int place = 0; place < policy->elements; place++)
        if (policy->element[place].kind == 'R' && policy->element[place].struck == struck && one_in(++rules))
            picked = place;
    if (picked >= 0)
        policy->element[picked].struck = !struck;
}

static void put_left(struct bytes *proposal, const struct policy *policy)
{
    proposal->length = lend_left(policy, proposal->bytes, FILE_BYTES).second;
}

void make_trimmed(struct bytes *proposal, struct original *original)
{
    trim_as_we_do(original);
    put_left(proposal, &original->policy);
}

void leave_out_rules(struct bytes *proposal, struct original *original)
{
    struct policy *policy = &original->policy;

    if (one_in(3)) {
        leave_out_some(policy);
    } else {
        if (!one_in(4) && policy->space <= 256) /* takes long in larger ones */
            trim_otherwise(original);
        else
            trim_as_we_do(original);
        for (uint32_t turns = below(3); turns > 0; turns--)
            turn_rule(policy, one_in(2));
    }
    put_left(proposal, policy);
}

/* Where the line behind one starts. */
static size_t behind(const struct bytes *file, size_t line, size_t length)
{
    return line + length + (line + length < file->length);
}

static void turn_name(struct bytes *file)
{
    static const char *const letters[] = {"R", "R", "SP", "O", ATTRIBUTE_LINE};
    const char *letter = ONE_OF(letters);
    size_t length, at = pick_field(file, letter, strchr("OA", *letter) ? 1 : 2, &length);

    turn_case(file->bytes + at, length);
}

static void change_word(struct bytes *file)
{
    static const char *const words[] = {
        "deny-overrides", "permit-overrides", "first-applicable", "only-one-applicable",
    };
    const char *effect = one_in(2) ? "permit" : "deny";

    switch (below(3)) {
    case 0: set_field(file, "R", 3, effect); break;
    case 1: set_field(file, "O", 2, effect); break;
    default: set_field(file, "SP", 3, ONE_OF(words)); break;
    }
}

/* One value more or less, the other letter, or another name. */
static void change_attribute(struct bytes *file)
{
    size_t length, count, line = pick_line(file, ATTRIBUTE_LINE, &length);
    size_t last = field_of(file, line, length, VALUES + 1, &count);

    switch (below(4)) {
    case 0: replace(file, line + length, 0, "\tone-more", 9); break;
    case 1: replace(file, last - 1, count + 1, "", 0); break;
    case 2: file->bytes[line] ^= 'A' ^ 'M'; break;
    default: set_field(file, ATTRIBUTE_LINE, 1, "another"); break;
    }
}

/* A line again behind it, under another name; often the last one. An obligation may come to another element. */
static void add_line(struct bytes *file)
{
    static const char *const letters[] = {"R", "R", "O", ANY_LINE};
    static uint8_t kept[sizeof file->bytes];
    char name[20];
    size_t length, other, count, line = pick_line(file, ONE_OF(letters), &length);

    if (one_in(2))
        for (length = 0, line = file->length - 1; line > 0 && file->bytes[line - 1] != '\n'; line--)
            length++;
    memcpy(kept, file->bytes + line, length + 1);
    int elsewhere = kept[0] == 'O' && one_in(2);
    size_t to = elsewhere ? pick_line(file, "SP", &other) : line;
    to = behind(file, to, elsewhere ? other : length);
    replace(file, to, 0, kept, length + 1);
    size_t at = field_of(file, to, length, strchr(TREE_LINE, kept[0]) ? 2 : 1, &count);
    sprintf(name, "fresh%lu", (unsigned long)below(100));
    if (!elsewhere && !one_in(8))
        replace(file, at, count, name, strlen(name));
}

static void exchange_lines(struct bytes *file)
{
    static const char *const letters[] = {"R", "R", "R", "O", "SP", ATTRIBUTE_LINE, ANY_LINE};
    static uint8_t kept[sizeof file->bytes];
    const char *letter = ONE_OF(letters);
    size_t at[2], length[2];

    for (int i = 0; i < 2; i++)
        at[i] = pick_line(file, letter, &length[i]);
    int later = at[1] > at[0], earlier = !later;
    if (at[0] == at[1])
        return;
    memcpy(kept, file->bytes + at[later], length[later]);
    replace(file, at[later], length[later], file->bytes + at[earlier], length[earlier]);
    replace(file, at[earlier], length[earlier], kept, length[later]);
}

static void drop_line(struct bytes *file)
{
    static const char *const letters[] = {"O", "O", "SP", ANY_LINE};
    size_t length, line = pick_line(file, ONE_OF(letters), &length);

    replace(file, line, behind(file, line, length) - line, "", 0);
}

/* What is left is a good file, if it has an element. */
static void drop_end(struct bytes *file)
{
    size_t length;

    file->length = pick_line(file, one_in(2) ? TREE_LINE : "O", &length);
}

void change_proposal(struct bytes *proposal)
{
    uint8_t byte = one_in(2) ? tricky_byte() : byte_beside_letters();
    uint32_t at = below((uint32_t)proposal->length);

    switch (below(16)) {
    case 0: case 1: turn_name(proposal); break;
    case 2: case 3: change_word(proposal); break;
    case 4: set_field(proposal, TREE_LINE, 4 + below(ATTRIBUTES), "*"); break;
    case 5: change_attribute(proposal); break;
    case 6: case 7: add_line(proposal); break;
    case 8: case 9: exchange_lines(proposal); break;
    case 10: drop_line(proposal); break;
    case 11: case 12: drop_end(proposal); break;
    case 13: replace(proposal, at, 1, &byte, 1); break;
    case 14: make_small_file(proposal); break; /* another file altogether */
    default: damage(proposal); break;
    }
}

/* 512 or 768 requests, and rules for one of them or few, often at the edge of 64. What they don't decide another policy may
 * permit, with the same obligations in another order. */
void make_sparse_file(struct bytes *file)
{
    static const char *const words[] = {"deny-overrides", "permit-overrides", "first-applicable"};
    int another = one_in(2);
    char line[80];

    file->length = 0;
    put(file, "A\tx\ta\tb\tc\td\te\tf\tg\th\ti\tj\tk\tl\tm\tn\to\tp\n");
    put(file, "A\ty\ta\tb\tc\td\te\tf\tg\th\ti\tj\tk\tl\tm\tn\to\tp\n");
    put(file, one_in(3) ? "M\tz\ta\tb\n" : "A\tz\ta\tb\n");
    put(file, another ? "S\t0\ttop\tfirst-applicable\t*\t*\t*\n" : "");
    sprintf(line, "P\t%d\tsome\t%s\t*\t*\t*\n", another, ONE_OF(words));
    put(file, line);
    put(file, another || one_in(2) ? "O\tlog\tpermit\nO\tslow\tpermit\n" : "");
    for (int rule = 1; rule <= 2; rule++) {
        const char *effect = one_in(2) ? "permit" : "deny", *last = one_in(3) ? "*" : one_in(2) ? "a" : "b";
        int first = 'a' + (int)below(16), second = one_in(2) ? "ap"[below(2)] : 'a' + (int)below(16);
        sprintf(line, "R\t%d\tr%d\t%s\t%c\t%c\t%s\n", 1 + another, rule, effect, first, second, last);
        put(file, line);
    }
    put(file, another ? "P\t1\tall\tfirst-applicable\t*\t*\t*\nO\tslow\tpermit\nO\tlog\tpermit\n" : "");
    put(file, another ? "R\t2\tr3\tpermit\t*\t*\t*\n" : "");
}
