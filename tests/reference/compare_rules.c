/* next_rule and strike: with names of elements, as they are and in other letter case, and with names that most often no
 * rule has; one after the other, until none is shown. */
#include "compare.h"

#include <stdlib.h>
#include <string.h>

static struct bytes name;
static struct { uint8_t bytes[NAME_BYTES]; size_t length; } shown; /* of the last file; no bytes if there is none */

/* Showing: */
static struct { unsigned long rule, none, too_long; } shows;

/* Striking: done, of these not the rule shown, by a name in other case, on the last line; 11; 15 by what has the name, also
 * for a rule that obligations alone need and a set or policy without children, and in a buffer of no bytes. */
static struct {
    unsigned long done, not_shown, other_case, last_line, too_long;
    unsigned long needed, obliged, set, childless, nothing, ill_formed, no_room;
} strikes;

static struct answer shown_by_reference(const uint8_t *file, size_t length, uint8_t *out, size_t room)
{
    struct answer answer = ref_next_rule(file, length, out, room);

    shows.too_long += answer.number == 11;
    if (answer.number != 0)
        return answer;
    shown.length = answer.second;
    memcpy(shown.bytes, out, shown.length);
    shows.rule += shown.length > 0;
    shows.none += shown.length == 0;
    return answer;
}

static struct answer by_reference(const uint8_t *file, size_t length, uint8_t *out, size_t room)
{
    struct answer answer = ref_strike(file, length, name.bytes, name.length, out, room);
    strikes.too_long += answer.number == 11;
    strikes.no_room += answer.number == 15 && room == 0;
    return answer;
}

static jogimaduve_answer by_library(const uint8_t *file, size_t length, uint8_t *out, size_t room)
{
    uint8_t *lent_name = exactly(name.bytes, name.length);
    jogimaduve_answer answer = jogimaduve_strike(file, length, lent_name, name.length, out, room);
    if (memcmp(lent_name, name.bytes, name.length) != 0)
        answer.number = UINT32_MAX; /* no answer of the reference: the name was written to */
    free(lent_name);
    return answer;
}

/* An answer for a name of an accepted policy. */
static void count_strike(struct policy *policy, struct answer answer)
{
    struct slice given = {name.bytes, name.length};
    int place = element_named(policy, given);
    const struct element *element = place < 0 ? NULL : &policy->element[place];

    if (element == NULL) {
        strikes.nothing += is_name(given);
        strikes.ill_formed += !is_name(given);
    } else if (element->kind != 'R') {
        strikes.set++;
        strikes.childless += element->children == 0;
    } else if (answer.number == 15) {
        strikes.needed++;
        strikes.obliged += first_other_decision(policy, place) == policy->space;
    } else if (answer.number == 0) {
        strikes.done++;
        strikes.not_shown += !equal_names((struct slice){shown.bytes, shown.length}, given);
        strikes.other_case += memcmp(element->name.bytes, name.bytes, name.length) != 0;
        strikes.last_line += place == policy->elements - 1;
    }
}

static void compare_name(const struct bytes *file, struct policy *policy, int accepted, size_t most_rooms)
{
    size_t rooms[] = {file->length, file->length, below((uint32_t)file->length), 0};
    unsigned long before = differences;
    struct answer answer = compare_rooms("strike", file, most_rooms, rooms[below(4)], by_reference, by_library);

    if (accepted)
        count_strike(policy, answer);
    if (differences > before)
        show_bytes("name", name.bytes, name.length);
}

/* The elements' names, as they are and in other case. Of large spaces there are not so many, as each takes longer. */
static void compare_elements(const struct bytes *file, struct policy *policy, size_t most_rooms)
{
    uint32_t step = 1 + (uint32_t)policy->space / 8;

    for (int place = (int)below(step); place < policy->elements; place += (int)step) {
        const struct element *element = &policy->element[place];
        name.length = 0;
        replace(&name, 0, 0, element->name.bytes, element->name.length);
        compare_name(file, policy, 1, one_in(4) ? most_rooms : 0);
        turn_case(name.bytes, name.length);
        compare_name(file, policy, 1, 0);
    }
}

void compare_rules(const struct bytes *file, struct policy *policy, int accepted)
{
    size_t most_rooms = policy->space <= 256 ? 5 : 1;

    compare_rooms("next_rule", file, most_rooms, NAME_BYTES, shown_by_reference, jogimaduve_next_rule);
    if (accepted)
        compare_elements(file, policy, most_rooms);
    for (int i = 0; i < 2; i++) {
        make_name(&name, file, "R", 2);
        compare_name(file, policy, accepted, 0);
    }
}

/* Shows and strikes until none is named, as one operation. */
static jogimaduve_answer by_steps(const uint8_t *file, size_t length, uint8_t *out, size_t room)
{
    static uint8_t texts[2][FILE_BYTES];
    uint8_t rule[NAME_BYTES];
    jogimaduve_answer left = {0, (uint32_t)length};

    for (int step = 0; step <= ELEMENTS; step++) {
        jogimaduve_answer next = jogimaduve_next_rule(file, left.second, rule, sizeof rule);
        if (next.number != 0)
            return next;
        if (next.second == 0)
            break;
        left = jogimaduve_strike(file, left.second, rule, next.second, texts[step % 2], FILE_BYTES);
        if (left.number != 0)
            return left;
        file = texts[step % 2];
    }
    if (left.second <= room)
        memcpy(out, file, left.second);
    return left;
}

/* There are many such files. */
void compare_strikes(const struct bytes *file, struct policy *policy)
{
    if (one_in(4))
        compare_rooms("next_rule and strike to the end", file, 0, FILE_BYTES, ref_trim, by_steps);
    if (one_in(24))
        compare_rules(file, policy, 1);
}

int rules_seen(void)
{
    const struct seen seen[] = {
        {"a rule shown", shows.rule}, {"none", shows.none}, {"a name too long for the buffer", shows.too_long},
        {"a rule struck", strikes.done}, {"not the one shown", strikes.not_shown}, {"by other case", strikes.other_case},
        {"on the last line", strikes.last_line}, {"a text too long for the buffer", strikes.too_long},
        {"not struck: needed", strikes.needed}, {"for obligations alone", strikes.obliged}, {"a set or policy", strikes.set},
        {"without children", strikes.childless}, {"of no element", strikes.nothing}, {"no name", strikes.ill_formed},
        {"without a buffer", strikes.no_room},
    };

    return seen_often("rules", seen, sizeof seen / sizeof *seen);
}
