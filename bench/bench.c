/* Measures the proved library beside the plain C operations, in one run: each file and operation first checked to give
 * the same answer and bytes from both, then timed in turns. Times are processor time, the best round of each. */
#include "files.h"
#include "jogimaduve.h"
#include "plain.h"
#include "processor_time.h"
#include "steps.h"
#include "trimming_steps.h"

#include <stdio.h>
#include <stdlib.h>
#include <string.h>

/* What next shows is struck; where it shows none, striking the last rule is refused. A step is the first one of a file.
 * Pairs of values are listed for the first M, and not for a file without one. Refusing a file is the same for all nine; it
 * is measured by decide. Accept is given a file's proposals: the one accepted, then those refused, by their answers. Join
 * has files of its own, two for each call. */
enum operation {
    DECIDE, TRIM, REPORT, NEXT, STRIKE, STEP, PAIRS, REFUSE, ACCEPT, JOIN = ACCEPT + PROPOSALS, OPERATIONS
};

enum { ROUNDS = 7, TEXT_BYTES = 6 << 20 };

static const double most_seconds = 0.4; /* of all rounds if calls are long */

struct side {
    jogimaduve_decision (*decide)(const uint8_t *, size_t, const uint8_t *, size_t, uint8_t *, size_t);
    jogimaduve_answer (*text[3])(const uint8_t *, size_t, uint8_t *, size_t); /* trim, report, next */
    jogimaduve_answer (*strike)(const uint8_t *, size_t, const uint8_t *, size_t, uint8_t *, size_t);
    jogimaduve_stepped (*step)(uint8_t *, size_t);
    jogimaduve_answer (*pairs)(const uint8_t *, size_t, const uint8_t *, size_t, uint8_t *, size_t);
    jogimaduve_answer (*accept)(const uint8_t *, size_t, const uint8_t *, size_t);
    jogimaduve_answer (*join)(const uint8_t *, size_t, const uint8_t *, size_t, const uint8_t *, size_t, uint8_t *, size_t);
    uint8_t *buffer;
};

static uint8_t library_text[TEXT_BYTES], plain_text[TEXT_BYTES];
static const struct side sides[2] = {
    {jogimaduve_decide, {jogimaduve_trim, jogimaduve_report, jogimaduve_next_rule}, jogimaduve_strike, jogimaduve_step,
     jogimaduve_value_pairs, jogimaduve_accept, jogimaduve_join, library_text},
    {plain_decide, {plain_trim, plain_report, plain_next_rule}, plain_strike, plain_step, plain_value_pairs, plain_accept,
     plain_join, plain_text},
};
static const char *const operation_names[OPERATIONS] = {
    "decide", "trim", "report", "next", "strike", "step", "pairs", "refuse",
    "accept", "accept18", "accept17", "accept16", "join",
};
static const uint32_t proposal_answers[PROPOSALS] = {[TRIMMED] = 0, [WHOLE] = 18, [LESS] = 17, [CHANGED] = 16};

static volatile uint32_t seen; /* keeps calls from being left out */

/* The step's text is the file, copied into the buffer before each call. The copy is timed with it, as it is too short to be
 * told from the clock's own time; both sides make it. */
static jogimaduve_decision step(const struct side *side, const struct policy_file *file)
{
    memcpy(side->buffer, file->bytes, file->length);
    jogimaduve_stepped answer = side->step(side->buffer, file->length);
    return (jogimaduve_decision){answer.number, answer.second, answer.struck};
}

/* Decides one request line, steps, tests a proposal, or fills the buffer with a text alone. */
static jogimaduve_decision call(const struct side *side, const struct policy_file *file, int operation, unsigned number)
{
    static const uint8_t none[1];
    jogimaduve_answer answer;

    if (operation == REFUSE)
        return side->decide(file->bytes, file->length, none, 0, side->buffer, TEXT_BYTES);
    if (operation == DECIDE)
        return side->decide(file->bytes, file->length, file->request[number % file->requests],
                            file->request_length[number % file->requests], side->buffer, TEXT_BYTES);
    if (operation == STEP)
        return step(side, file);
    if (operation == JOIN)
        answer = side->join(file->bytes, file->length, file->second->bytes, file->second->length,
                            (const uint8_t *)file->word, strlen(file->word), side->buffer, TEXT_BYTES);
    else if (operation >= ACCEPT) {
        const struct proposal *proposal = &file->proposal[operation - ACCEPT];
        answer = side->accept(file->bytes, file->length, proposal->bytes, proposal->length);
    } else if (operation == STRIKE)
        answer = side->strike(file->bytes, file->length, file->rule, file->rule_length, side->buffer, TEXT_BYTES);
    else if (operation == PAIRS)
        answer = side->pairs(file->bytes, file->length, file->sets, file->sets_length, side->buffer, TEXT_BYTES);
    else
        answer = side->text[operation - TRIM](file->bytes, file->length, side->buffer, TEXT_BYTES);
    return (jogimaduve_decision){answer.number, answer.second, 0};
}

static int same_answers(jogimaduve_decision one, jogimaduve_decision other)
{
    return one.number == other.number && one.second == other.second && one.length == other.length;
}

/* The rule that is shown takes the last one's place, if there is one. */
static void take_shown(struct policy_file *file)
{
    jogimaduve_answer shown = jogimaduve_next_rule(file->bytes, file->length, file->rule, sizeof file->rule);

    file->shown = shown.number == JOGIMADUVE_DONE && shown.second > 0;
    if (file->shown)
        file->rule_length = shown.second;
}

/* From the library's trimmed text, which is compared with the other side's before. */
static void take_proposals(struct policy_file *file)
{
    jogimaduve_answer trimmed = jogimaduve_trim(file->bytes, file->length, library_text, TEXT_BYTES);

    if (trimmed.number == JOGIMADUVE_DONE)
        make_proposals(file, library_text, trimmed.second);
}

static int is_measured(const struct policy_file *file, int operation)
{
    if ((operation == REFUSE) != (file->requests == 0))
        return 0;
    if (operation >= ACCEPT)
        return file->proposal[operation - ACCEPT].length > 0;
    return operation != PAIRS || file->sets_length > 0;
}

static int expected(const struct policy_file *file, int operation, uint32_t number)
{
    if (operation == JOIN)
        return number == file->join_answer;
    if (operation >= ACCEPT)
        return number == proposal_answers[operation - ACCEPT];
    if (operation == STRIKE)
        return number == (file->shown ? JOGIMADUVE_DONE : JOGIMADUVE_NOT_NEEDLESS);
    return (number == JOGIMADUVE_DONE) == (operation != REFUSE);
}

static void check_same(const struct policy_file *file, int operation)
{
    unsigned calls = operation == DECIDE ? REQUESTS : 1;

    memset(library_text, 255, TEXT_BYTES);
    memset(plain_text, 255, TEXT_BYTES);
    for (unsigned i = 0; i < calls; i++) {
        jogimaduve_decision library = call(&sides[0], file, operation, i), plain = call(&sides[1], file, operation, i);
        if (same_answers(library, plain) && memcmp(library_text, plain_text, TEXT_BYTES) == 0
            && expected(file, operation, library.number))
            continue;
        fprintf(stderr, "%s, %s: library %lu %lu %lu, plain %lu %lu %lu, or other bytes\n", file->name,
                operation_names[operation], (unsigned long)library.number, (unsigned long)library.second,
                (unsigned long)library.length, (unsigned long)plain.number, (unsigned long)plain.second,
                (unsigned long)plain.length);
        exit(1);
    }
}

static double seconds_of(const struct side *side, const struct policy_file *file, int operation, unsigned calls)
{
    uint32_t sum = 0;

    double start = processor_seconds();
    for (unsigned i = 0; i < calls; i++)
        sum += call(side, file, operation, i).second;
    double end = processor_seconds();
    seen = sum;
    return end - start;
}

/* Of a round; shorter for proposals that are refused, so that all of it takes little longer. */
static double round_seconds(int operation) { return operation > ACCEPT && operation < JOIN ? 0.005 : 0.02; }

/* Calls that take about a round; always as many decisions as there are request lines, or a multiple. */
static unsigned calls_in_round(const struct side *side, const struct policy_file *file, int operation)
{
    unsigned least = operation == DECIDE ? REQUESTS : 1, calls = least;

    for (;;) {
        double seconds = seconds_of(side, file, operation, calls);
        if (seconds >= round_seconds(operation) / 4)
            return calls * (1 + (unsigned)(round_seconds(operation) / seconds)) / least * least;
        calls *= 4;
    }
}

/* Seconds a call, by side. */
static void measure(const struct policy_file *file, int operation, double best[2])
{
    unsigned calls[2];
    double spent = 0;

    for (int side = 0; side < 2; side++)
        calls[side] = calls_in_round(&sides[side], file, operation);
    best[0] = best[1] = 1e9;
    for (int round = 0; round < ROUNDS && (round < 2 || spent < most_seconds); round++)
        for (int side = 0; side < 2; side++) {
            double seconds = seconds_of(&sides[side], file, operation, calls[side]);
            spent += seconds;
            if (seconds / calls[side] < best[side])
                best[side] = seconds / calls[side];
        }
}

/* Prints a line of the table, with the bytes of both files of a join, and keeps the largest ratio. */
static void compare(const struct policy_file *file, int operation, double largest[OPERATIONS])
{
    size_t length = file->length + (operation == JOIN ? file->second->length : 0);
    double best[2];

    check_same(file, operation);
    measure(file, operation, best);
    double ratio = best[0] / best[1];
    printf("%-20s %6lu  %-8s %13.2f %14.2f %9.2f\n", file->name, (unsigned long)length, operation_names[operation],
           1e6 * best[0], 1e6 * best[1], ratio);
    fflush(stdout);
    if (ratio > largest[operation])
        largest[operation] = ratio;
}

int main(void)
{
    static struct policy_file file;
    double largest[OPERATIONS] = {0};

    printf("%-20s %6s  %-8s %13s %14s %9s\n", "file", "bytes", "", "library, us", "plain C, us", "ratio");
    for (unsigned number = 0; make_file(&file, number); number++) {
        take_shown(&file);
        take_proposals(&file);
        for (int operation = 0; operation < JOIN; operation++)
            if (is_measured(&file, operation))
                compare(&file, operation, largest);
    }
    for (unsigned number = 0; make_join(&file, number); number++)
        compare(&file, JOIN, largest);
    printf("largest ratio:");
    for (int operation = 0; operation < OPERATIONS; operation++)
        printf("%s %s %.2f", operation > 0 ? "," : "", operation_names[operation], largest[operation]);
    printf("\n\n");
    bench_trimming_steps();
    printf("\n");
    bench_steps();
    return 0;
}
