/* One step to the next request: the library's beside plain C that goes the same way, and beside plain C that compares. */
#include "steps.h"
#include "processor_time.h"
#include "request.h"

#include <stdio.h>
#include <stdlib.h>
#include <string.h>

enum { ROUNDS = 7, STEPS = 1 << 20, FORMS = 3 };

static const struct space {
    const char *name;
    size_t len;
    struct counts counts;
} spaces[] = {
    {"one value", 1, {{1}}},
    {"lab", 3, {{5, 6, 8}}},
    {"badge", 3, {{31, 6, 8}}},
    {"largest", 6, {{4, 4, 4, 4, 4, 4}}},
    {"long-lists", 3, {{16, 16, 16}}},
    {"sets-of-12", 1, {{4095}}},
};

static step *const forms[FORMS] = {next_request, by_quotient, comparing};

/* Seconds for one step, from request 0 round and round, and where it ends. */
static double seconds_of(step *next, const struct space *space, struct request *end_at)
{
    struct request q = {.len = space->len};

    double start = processor_seconds();
    for (unsigned i = 0; i < STEPS; i++)
        q = next(q, space->counts);
    double end = processor_seconds();
    *end_at = q;
    return (end - start) / STEPS;
}

void bench_steps(void)
{
    printf("%-20s %6s  %14s %14s %9s %14s\n", "space", "", "library, ns", "plain C, ns", "ratio", "comparing, ns");
    for (size_t i = 0; i < sizeof spaces / sizeof *spaces; i++) {
        double best[FORMS] = {1, 1, 1};
        struct request end_at[FORMS];
        for (int round = 0; round < ROUNDS; round++)
            for (int form = 0; form < FORMS; form++) {
                double seconds = seconds_of(forms[form], &spaces[i], &end_at[form]);
                if (seconds < best[form])
                    best[form] = seconds;
                if (memcmp(end_at[form].values, end_at[0].values, sizeof end_at[0].values) != 0) {
                    fprintf(stderr, "%s: form %d steps elsewhere\n", spaces[i].name, form);
                    exit(1);
                }
            }
        printf("%-20s %6s  %14.2f %14.2f %9.2f %14.2f\n", spaces[i].name, "", 1e9 * best[0], 1e9 * best[1],
               best[0] / best[1], 1e9 * best[2]);
    }
}
