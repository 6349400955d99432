/* Files to be joined: a maker's with a laboratory's, and two large ones that make about as large a file as there can be. */
#include "file_lines.h"

#include <string.h>

static const unsigned everything[6] = {0};

enum { LARGE_ATTRIBUTES = 4 };

/* Elements of 16-byte names, most of them rules in policies of seven, with targets of three values out of four. */
static void large(struct policy_file *file, const unsigned attributes[LARGE_ATTRIBUTES], unsigned first, unsigned elements)
{
    struct shape shape = {.long_names = 1};
    uint64_t state = first;

    for (unsigned i = 0; i < LARGE_ATTRIBUTES; i++)
        numbered_attribute(file, &shape, 'A', attributes[i], 4);
    numbered(file, &shape, 'S', 0, first, "first-applicable", everything);
    for (unsigned i = 1; i < elements; i++) {
        unsigned targets[6];
        for (unsigned j = 0; j < LARGE_ATTRIBUTES; j++)
            targets[j] = 15u & ~(1u << random_below(&state, 4));
        if (i % 8 == 1)
            numbered(file, &shape, 'P', 1, first + i, algorithms[i / 8 % 3], targets);
        else
            numbered(file, &shape, 'R', 2, first + i, i % 2 ? "permit" : "deny", targets);
    }
}

/* Joined they have six attributes, of which two are shared and stand in another order in the second, and 64 elements. */
static void two_large(struct policy_file *first, struct policy_file *second)
{
    large(first, (const unsigned[LARGE_ATTRIBUTES]){0, 1, 2, 3}, 0, 31);
    large(second, (const unsigned[LARGE_ATTRIBUTES]){5, 3, 4, 2}, 100, 32);
}

/* Refused. */

/* At the last line, for the name of the first's last rule. */
static void last_name_again(struct policy_file *first, struct policy_file *second)
{
    two_large(first, second);
    for (size_t i = second->length - second->rule_length; i > 0; i--)
        if (memcmp(second->bytes + i, second->rule, second->rule_length) == 0) {
            memcpy(second->bytes + i, first->rule, first->rule_length);
            return;
        }
}

/* For the letter of the second's last attribute, which is shared. */
static void other_letter(struct policy_file *first, struct policy_file *second)
{
    uint8_t *line = second->bytes;

    two_large(first, second);
    for (unsigned i = 1; i < LARGE_ATTRIBUTES; i++)
        line = (uint8_t *)memchr(line, '\n', second->length) + 1;
    *line = 'M';
}

int make_join(struct policy_file *file, unsigned number)
{
    static const struct { const char *name, *word; uint32_t answer; } joins[] = {
        {"join-lab-12", "deny-overrides", 0}, {"join-lab-25", "permit-overrides", 0},
        {"join-badge-25", "first-applicable", 0}, {"join-obliged-lab-25", "only-one-applicable", 0},
        {"join-large", "deny-overrides", 0}, {"join-obliged-large", "permit-overrides", 0},
        {"join-refused-name", "first-applicable", 4}, {"join-refused-letter", "only-one-applicable", 19},
    };
    static struct policy_file second;
    struct shape shape;

    if (number >= sizeof joins / sizeof *joins)
        return 0;
    file->name = second.name = joins[number].name;
    file->length = second.length = 0;
    file->second = &second;
    file->word = joins[number].word;
    file->join_answer = joins[number].answer;
    if (number < 4)
        maker_policy(file, &shape);
    switch (number) {
    case 0: small_laboratory(&second, &shape, 'A'); break;
    case 1: common_laboratory(&second, &shape, 'A', "first-applicable"); break;
    case 2: common_laboratory(&second, &shape, 'M', "first-applicable"); break;
    case 3: common_laboratory(&second, &shape, 'A', "first-applicable"); oblige_all(file); oblige_laboratory(&second); break;
    case 4: two_large(file, &second); break;
    case 5: two_large(file, &second); oblige_all(file); oblige_all(&second); break;
    case 6: last_name_again(file, &second); break;
    default: other_letter(file, &second); break;
    }
    return 1;
}
