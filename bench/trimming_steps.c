/* Trimming by steps, each on the text that the one before left, up to the one that strikes none: the time of all together
 * beside that of one trim, and of the longest. The two sides are first checked to give the same answers and memory at every
 * step of a file, also of one that is refused, and to end in the trimmed text. */
#include "trimming_steps.h"
#include "files.h"
#include "jogimaduve.h"
#include "plain.h"
#include "processor_time.h"

#include <stdio.h>
#include <stdlib.h>
#include <string.h>

enum { SIDES = 2, ROUNDS = 5, MOST_STEPS = 64, BEHIND = 64 }; /* 63 rules and a step that strikes none; bytes watched */
enum { MEMORY_BYTES = MOST_FILE_BYTES + BEHIND };

static const double round_seconds = 0.002;

static const struct side {
    jogimaduve_answer (*trim)(const uint8_t *, size_t, uint8_t *, size_t);
    jogimaduve_stepped (*step)(uint8_t *, size_t);
} sides[SIDES] = {{jogimaduve_trim, jogimaduve_step}, {plain_trim, plain_step}};

/* What each step is given. */
static struct state {
    size_t length;
    uint8_t memory[MEMORY_BYTES];
} states[MOST_STEPS + 1];

struct times {
    double trim, all, longest;
    unsigned longest_step; /* from 1 */
};

static volatile uint32_t seen; /* keeps calls from being left out */

static void stop(const struct policy_file *file, unsigned number, const char *what)
{
    fprintf(stderr, "%s, step %u: %s\n", file->name, number + 1, what);
    exit(1);
}

/* Takes one step on both sides and keeps what it leaves. */
static jogimaduve_stepped check_step(const struct policy_file *file, unsigned number)
{
    static uint8_t memory[SIDES][MEMORY_BYTES];
    const struct state *state = &states[number];
    jogimaduve_stepped answer[SIDES];

    for (int side = 0; side < SIDES; side++) {
        memcpy(memory[side], state->memory, MEMORY_BYTES);
        answer[side] = sides[side].step(memory[side], state->length);
    }
    if (answer[0].number != answer[1].number || answer[0].second != answer[1].second
        || answer[0].struck != answer[1].struck)
        stop(file, number, "other answers");
    if (memcmp(memory[0], memory[1], MEMORY_BYTES) != 0)
        stop(file, number, "other bytes");
    if (!answer[0].struck && memcmp(memory[0], state->memory, MEMORY_BYTES) != 0)
        stop(file, number, "nothing struck, but bytes changed");
    states[number + 1].length = answer[0].second;
    memcpy(states[number + 1].memory, memory[0], MEMORY_BYTES);
    return answer[0];
}

/* Steps to the end. Gives how many rules are struck, or -1 if the file is refused. */
static int check_steps(const struct policy_file *file)
{
    static uint8_t trimmed[MOST_FILE_BYTES];
    unsigned number = 0;

    memset(states[0].memory, 255, MEMORY_BYTES);
    memcpy(states[0].memory, file->bytes, file->length);
    states[0].length = file->length;
    for (jogimaduve_stepped answer; (answer = check_step(file, number)).struck != 0; number++)
        if (number + 1 == MOST_STEPS)
            stop(file, number, "a rule too many");
    jogimaduve_answer answer = jogimaduve_trim(file->bytes, file->length, trimmed, sizeof trimmed);
    if ((answer.number != JOGIMADUVE_DONE) != (file->requests == 0))
        stop(file, number, "refused, or not");
    if (answer.number != JOGIMADUVE_DONE)
        return -1;
    if (answer.second != states[number].length || memcmp(trimmed, states[number].memory, answer.second) != 0)
        stop(file, number, "not the trimmed text");
    return (int)number;
}

/* Of one step, or of one trim instead. The step's text is copied before each call, within the time; both sides do it. */
static double seconds_of(const struct side *side, const struct state *state, int trim, unsigned calls)
{
    static uint8_t memory[MEMORY_BYTES];
    uint32_t sum = 0;

    double start = processor_seconds();
    for (unsigned i = 0; i < calls; i++) {
        if (trim) {
            sum += side->trim(state->memory, state->length, memory, sizeof memory).second;
            continue;
        }
        memcpy(memory, state->memory, state->length);
        sum += side->step(memory, state->length).second;
    }
    double end = processor_seconds();
    seen = sum;
    return (end - start) / calls;
}

/* Seconds a call, by side: the best round of each. */
static void measure(const struct state *state, int trim, double best[SIDES])
{
    unsigned calls[SIDES];

    for (int side = 0; side < SIDES; side++) {
        best[side] = seconds_of(&sides[side], state, trim, 1);
        calls[side] = 1 + (unsigned)(round_seconds / best[side]);
    }
    for (int round = 0; round < ROUNDS; round++)
        for (int side = 0; side < SIDES; side++) {
            double seconds = seconds_of(&sides[side], state, trim, calls[side]);
            if (seconds < best[side])
                best[side] = seconds;
        }
}

static void measure_all(unsigned struck, struct times times[SIDES])
{
    double best[SIDES];

    measure(&states[0], 1, best);
    for (int side = 0; side < SIDES; side++)
        times[side] = (struct times){.trim = best[side]};
    for (unsigned number = 0; number <= struck; number++) {
        measure(&states[number], 0, best);
        for (int side = 0; side < SIDES; side++) {
            times[side].all += best[side];
            if (best[side] <= times[side].longest)
                continue;
            times[side].longest = best[side];
            times[side].longest_step = number + 1;
        }
    }
}

static void print_row(const char *name, int struck, const char *what, double library, double plain)
{
    printf("%-20s %6d  %-7s %14.2f %14.2f %9.2f", name, struck, what, 1e6 * library, 1e6 * plain, library / plain);
}

static void print_times(const char *name, int struck, const struct times times[SIDES])
{
    print_row(name, struck, "trim", times[0].trim, times[1].trim);
    printf("\n");
    print_row(name, struck, "steps", times[0].all, times[1].all);
    printf("\n");
    print_row(name, struck, "longest", times[0].longest, times[1].longest);
    printf("  step %u, %u\n", times[0].longest_step, times[1].longest_step);
    fflush(stdout);
}

void bench_trimming_steps(void)
{
    static struct policy_file file;
    const char *hardest[SIDES] = {"none", "none"};
    struct times times[SIDES], longest[SIDES];

    memset(longest, 0, sizeof longest);
    printf("%-20s %6s  %-7s %14s %14s %9s\n", "file", "struck", "", "library, us", "plain C, us", "ratio");
    for (unsigned number = 0; make_file(&file, number); number++) {
        int struck = check_steps(&file);
        if (struck < 0)
            continue;
        measure_all((unsigned)struck, times);
        print_times(file.name, struck, times);
        for (int side = 0; side < SIDES; side++)
            if (times[side].longest > longest[side].longest) {
                longest[side] = times[side];
                hardest[side] = file.name;
            }
    }
    printf("longest step: library %.2f us, step %u of %s; plain C %.2f us, step %u of %s\n", 1e6 * longest[0].longest,
           longest[0].longest_step, hardest[0], 1e6 * longest[1].longest, longest[1].longest_step, hardest[1]);
}
