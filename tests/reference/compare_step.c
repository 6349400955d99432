/* step: one on each file, and lists of steps and requests on a text that is held. */
#include "compare.h"

#include <stdio.h>
#include <stdlib.h>
#include <string.h>

/* Steps: */
static struct {
    unsigned long struck, none, refused;
    unsigned long last_line;  /* struck: the text's last line */
    unsigned long first_rule; /* struck: the first rule line */
    unsigned long obliged;    /* struck in a file with obligations */
} steps;

/* Lists: */
static struct {
    unsigned long after_end;  /* a step behind one that said that none is left */
    unsigned long decided;    /* a request between two steps that strike a rule */
    unsigned long obliged;    /* such a request with obligations */
    unsigned long too_long;   /* which were too long for the buffer */
    unsigned long refused;    /* a bad request there */
    unsigned long early, late; /* fewer steps than trimming strikes rules, and more */
} lists;

/* A rule that is struck in what is left. */
static void count_strike(const struct policy *policy, int rule)
{
    int rules_before = 0, behind = 0;

    for (int place = 0; place < policy->elements; place++) {
        const struct element *element = &policy->element[place];
        rules_before += place < rule && element->kind == 'R' && !element->struck;
        behind += place > rule && !element->struck;
    }
    steps.struck++;
    steps.last_line += behind == 0;
    steps.first_rule += rules_before == 0;
    steps.obliged += has_obligation(policy);
}

static const struct policy *fresh; /* the file that a single step is for */
static struct stepped wanted;      /* what the reference says of it */

/* The first rule whose line is not in its place. */
static int rule_struck(const uint8_t *left, size_t length)
{
    size_t at = fresh->attribute_lines.length;

    for (int place = 0; place < fresh->elements; place++) {
        struct slice line = fresh->element[place].line;
        if (at + line.length > length || memcmp(left + at, line.bytes, line.length) != 0)
            return place;
        at += line.length;
    }
    return -1;
}

/* In the buffer, which is as long as the file. As two numbers: whether a rule was struck is compared by itself. */
static struct answer by_reference(const uint8_t *file, size_t length, uint8_t *out, size_t room)
{
    memcpy(out, file, room);
    wanted = ref_step(out, length);
    steps.refused += wanted.number != 0;
    steps.none += wanted.number == 0 && !wanted.struck;
    if (wanted.struck)
        count_strike(fresh, rule_struck(out, wanted.second));
    return (struct answer){wanted.number, wanted.second};
}

/* In the buffer, so that a byte written behind it shows, or in a copy, so that a memory checker sees one read there. */
static jogimaduve_answer by_library(const uint8_t *file, size_t length, uint8_t *out, size_t room)
{
    uint8_t *copy = exactly(file, length);
    int in_copy = one_in(2);

    memcpy(out, file, room);
    jogimaduve_stepped got = jogimaduve_step(in_copy ? copy : out, length);
    if (in_copy)
        memcpy(out, copy, length);
    free(copy);
    if (got.struck != wanted.struck)
        got.number = UINT32_MAX; /* no answer of the reference */
    return (jogimaduve_answer){got.number, got.second};
}

void compare_step(const struct bytes *file, const struct policy *policy, int accepted)
{
    fresh = accepted ? policy : NULL;
    compare_rooms("step", file, 0, file->length, by_reference, by_library);
}

/* A text that is held. */

enum { BEHIND = 64, MOST_CALLS = 3 * ELEMENTS + 8 };
enum call { STEP = 's', REQUEST = 'r', OTHER = 'o' };

/* At one place for all lists, one after the other: whatever a call kept of an earlier one would be another file's. */
static uint8_t text[FILE_BYTES + BEHIND], wanted_text[FILE_BYTES + BEHIND];

static struct {
    const struct bytes *file;            /* first read */
    struct policy policy;                /* what is left of it */
    size_t length;                       /* of the text */
    int strikes, order[ELEMENTS], steps; /* what trimming strikes, and how often a step was made */
    char calls[MOST_CALLS + 1];          /* the list */
} held;

/* Behind it stand the file's lines once more, which a call that goes on reading there would find. */
static void hold(const struct bytes *file)
{
    static struct outcome outcomes[SPACE];

    held.file = file;
    held.length = file->length;
    held.steps = 0;
    read_policy(file->bytes, file->length, &held.policy);
    find_outcomes(&held.policy, outcomes);
    held.strikes = strike_needless(&held.policy, outcomes, held.order);
    for (int i = 0; i < held.strikes; i++)
        held.policy.element[held.order[i]].struck = 0;
    for (size_t i = 0; i < sizeof text; i++)
        text[i] = file->bytes[i % file->length];
    memcpy(wanted_text, text, sizeof text);
}

/* Of any length up to about three calls for each rule that trimming strikes. */
static void choose_calls(void)
{
    uint32_t count = 1 + below(3 * (uint32_t)held.strikes + 6);

    for (uint32_t i = 0; i < count; i++)
        held.calls[i] = one_in(2) ? STEP : one_in(8) ? OTHER : REQUEST;
    held.calls[count] = 0;
}

static void compare_held_step(void)
{
    uint32_t struck = held.steps < held.strikes ? 1 : 0;

    if (struck) {
        int rule = held.order[held.steps];
        count_strike(&held.policy, rule);
        held.policy.element[rule].struck = 1;
    }
    steps.none += !struck;
    lists.after_end += held.steps > held.strikes;
    struct answer left = lend_left(&held.policy, wanted_text, FILE_BYTES);
    jogimaduve_stepped got = jogimaduve_step(text, held.length);
    if (got.number != 0 || got.second != left.second || got.struck != struck)
        difference("step in a list", left, (jogimaduve_answer){got.number, got.second}, held.file);
    held.length = left.second;
    held.steps++;
}

static void compare_held_request(int another_step)
{
    struct answer answer = compare_decide_left(held.file, &held.policy, (struct slice){text, held.length});

    if (!another_step || held.steps == 0 || held.steps >= held.strikes)
        return;
    lists.refused += answer.number == 10;
    lists.decided += answer.number != 10;
    lists.obliged += answer.number != 10 && answer.second > 0;
    lists.too_long += answer.number == 11;
}

/* On another text, in between. */
static void compare_other_step(void)
{
    static struct bytes file;
    static struct policy policy;

    make_small_file(&file);
    compare_step(&file, &policy, read_policy(file.bytes, file.length, &policy).number == 0);
}

static void compare_call(const char *call)
{
    if (*call == STEP)
        compare_held_step();
    else if (*call == REQUEST)
        compare_held_request(strchr(call, STEP) != NULL);
    else
        compare_other_step();
    if (memcmp(text, wanted_text, sizeof text) != 0)
        difference("the text held", (struct answer){0, 0}, (jogimaduve_answer){0, 0}, held.file);
}

void compare_held(const struct bytes *file)
{
    unsigned long before = differences;
    size_t done = 0;

    hold(file);
    choose_calls();
    while (held.calls[done] != 0 && differences == before)
        compare_call(&held.calls[done++]);
    if (differences > before)
        printf("  list of steps and requests: %.*s\n", (int)done, held.calls);
    lists.early += held.steps < held.strikes;
    lists.late += held.steps > held.strikes;
}

int steps_seen(void)
{
    const struct seen seen[] = {
        {"a rule struck", steps.struck}, {"on the last line", steps.last_line}, {"the first rule", steps.first_rule},
        {"with obligations", steps.obliged}, {"none left", steps.none}, {"a refused text", steps.refused},
        {"lists: behind the end", lists.after_end}, {"a decision between", lists.decided},
        {"with obligations", lists.obliged}, {"too long for the buffer", lists.too_long},
        {"a bad request between", lists.refused}, {"fewer steps than strikes", lists.early}, {"more", lists.late},
    };

    return seen_often("steps", seen, sizeof seen / sizeof *seen);
}
