/* Compares libjogimaduve with the reference on generated inputs: valid files of many shapes, damaged ones, good and bad
 * request lines, names of attributes, rules and others, proposals, pairs to be joined, buffers too short, exact and longer.
 * Lent memory is compared byte for byte. Of stored files, whose reports are compared elsewhere, only the pairs of values,
 * showing and striking rules, steps, proposals, joining and, of those with obligations, every request are.
 *
 * Usage: compare SEED COUNT [FILE ...]. Each input is made from its own seed alone, SEED and those behind it, so that
 * `compare <seed shown> 1` makes it again. Prints the number of differences; the exit status is 1 if there are any, or if
 * many inputs missed some of the answers. */
#include "compare.h"

#include <stdio.h>
#include <stdlib.h>
#include <string.h>

enum { BEHIND = 64, REPORT_BYTES = 65536 }; /* bytes watched behind each lent buffer; the program's buffer */
enum { NUMBERS = 20, OF_LISTS = 12 };       /* no operation here answers 12 */

unsigned long differences;
static unsigned long seen[NUMBERS];

static unsigned long files_with_set, files_with_obligation; /* accepted */
static char input[200]; /* its seed, or the file's name */

void show_bytes(const char *what, const uint8_t *bytes, size_t length)
{
    printf("  %s, %lu bytes: \"", what, (unsigned long)length);
    for (size_t i = 0; i < length; i++) {
        if (bytes[i] == '\t')
            printf("\\t");
        else if (bytes[i] == '\n')
            printf("\\n");
        else if (bytes[i] < 32 || bytes[i] > 126 || bytes[i] == '"' || bytes[i] == '\\')
            printf("\\%03o", bytes[i]);
        else
            putchar(bytes[i]);
    }
    printf("\"\n");
}

/* A copy of exactly these bytes, so that a memory checker sees a read behind them. */
uint8_t *exactly(const uint8_t *bytes, size_t length)
{
    uint8_t *copy = malloc(length > 0 ? length : 1);
    if (copy == NULL)
        abort();
    memcpy(copy, bytes, length);
    return copy;
}

void difference(const char *what, struct answer wanted, jogimaduve_answer got, const struct bytes *file)
{
    if (++differences > 20)
        return; /* enough shown */
    printf("difference in %s, %s: reference %lu %lu,", what, input, (unsigned long)wanted.number,
           (unsigned long)wanted.second);
    printf(" library %lu %lu\n", (unsigned long)got.number, (unsigned long)got.second);
    show_bytes("file", file->bytes, file->length);
}

/* An operation that fills a lent buffer of `room` bytes. */
static struct answer compare_text(const char *what, const struct bytes *file, size_t room,
                                  reference_text *reference, library_text *library)
{
    uint8_t *lent_file = exactly(file->bytes, file->length);
    uint8_t *wanted_bytes = malloc(room + BEHIND), *bytes = malloc(room + BEHIND);
    if (wanted_bytes == NULL || bytes == NULL)
        abort();
    for (size_t i = 0; i < room + BEHIND; i++)
        wanted_bytes[i] = bytes[i] = (uint8_t)(i * 37 + 131 + i / 256);

    struct answer wanted = reference(file->bytes, file->length, wanted_bytes, room);
    jogimaduve_answer got = library(lent_file, file->length, bytes, room);
    seen[wanted.number]++;
    if (got.number != wanted.number || got.second != wanted.second || memcmp(bytes, wanted_bytes, room + BEHIND) != 0
        || memcmp(lent_file, file->bytes, file->length) != 0) {
        difference(what, wanted, got, file);
        if (differences <= 20)
            printf("  buffer of %lu bytes\n", (unsigned long)room);
    }
    free(lent_file);
    free(wanted_bytes);
    free(bytes);
    return wanted;
}

struct answer compare_rooms(const char *what, const struct bytes *file, size_t most_rooms, size_t first_room,
                            reference_text *reference, library_text *library)
{
    struct answer answer = compare_text(what, file, first_room, reference, library);
    size_t needed = answer.second;

    if (answer.number != 0 && answer.number != 11)
        return answer;
    size_t more = 1 + below(200), less = below((uint32_t)needed), one_less = needed - (needed > 0);
    size_t rooms[] = {needed, one_less, needed + more, less, 0};
    for (size_t i = 0; i < most_rooms && i < sizeof rooms / sizeof *rooms; i++)
        compare_text(what, file, rooms[i], reference, library);
    return answer;
}

static int has_set(const struct policy *policy)
{
    for (int i = 0; i < policy->attributes; i++)
        if (policy->attribute[i].letter == 'M')
            return 1;
    return 0;
}

int has_obligation(const struct policy *policy)
{
    for (int place = 0; place < policy->elements; place++)
        if (policy->element[place].obligations > 0)
            return 1;
    return 0;
}

static void compare_input(uint64_t seed)
{
    static struct bytes file;
    static struct policy policy;

    snprintf(input, sizeof input, "seed %llu", (unsigned long long)seed);
    start_random(seed);
    make_file(&file);
    int accepted = read_policy(file.bytes, file.length, &policy).number == 0;
    int small = policy.space <= 256;

    for (int i = accepted ? (small ? 24 : 6) : 2; i > 0; i--)
        compare_decide(&file, &policy, accepted);
    files_with_set += accepted && has_set(&policy);
    files_with_obligation += accepted && has_obligation(&policy);
    compare_rooms("trim", &file, small ? 5 : 1, below(2) ? file.length : below(64), ref_trim, jogimaduve_trim);
    compare_rooms("report", &file, small ? 5 : 1, below(2) ? REPORT_BYTES : below(64), ref_report, jogimaduve_report);
    compare_pairs(&file, &policy, accepted);
    compare_rules(&file, &policy, accepted);
    compare_step(&file, &policy, accepted);
    if (accepted && small)
        compare_held(&file);
    compare_accept(&file, &policy, accepted);
    compare_join(&file, &policy, accepted);
    compare_made_joining();
    compare_small_files();
    compare_obliged_files();
    if (one_in(25))
        compare_sparse_file();
}

static void compare_stored(const char *name)
{
    static struct bytes file;
    static struct policy policy;
    FILE *stored = fopen(name, "rb");

    if (stored == NULL) {
        perror(name);
        exit(2);
    }
    snprintf(input, sizeof input, "%s", name);
    start_random(0);
    file.length = fread(file.bytes, 1, sizeof file.bytes, stored);
    fclose(stored);
    int accepted = read_policy(file.bytes, file.length, &policy).number == 0;
    for (int request = 0; accepted && has_obligation(&policy) && request < policy.space; request++)
        compare_request(&file, &policy, request);
    compare_pairs(&file, &policy, accepted);
    compare_rules(&file, &policy, accepted);
    compare_step(&file, &policy, accepted);
    if (accepted && policy.space <= 256)
        compare_held(&file);
    compare_accept(&file, &policy, accepted);
    compare_join(&file, &policy, accepted);
}

int seen_often(const char *of_what, const struct seen *seen, size_t count)
{
    int all = 1;

    printf("%s:", of_what);
    for (size_t i = 0; i < count; i++) {
        printf("%s %s %lu", i > 0 ? "," : "", seen[i].what, seen[i].times);
        all = all && seen[i].times >= OFTEN;
    }
    printf("\n");
    return all;
}

/* Whether every number was answered often, and sets and obligations came up often; prints how often. */
static int all_seen(void)
{
    int all = 1;

    printf("answers by number:");
    for (int number = 0; number < NUMBERS; number++) {
        printf(" %d:%lu", number, seen[number]);
        all = all && (number == OF_LISTS || seen[number] >= OFTEN);
    }
    printf("\nfiles with an M: %lu, with an obligation: %lu\n", files_with_set, files_with_obligation);
    all = all && files_with_set >= OFTEN && files_with_obligation >= OFTEN;
    all = requests_seen() && all;
    all = obligations_seen() && all;
    all = rules_seen() && all;
    all = steps_seen() && all;
    all = proposals_seen() && all;
    all = joining_seen() && all;
    return pairs_seen() && all;
}

int main(int count, char **words)
{
    if (count < 3) {
        fprintf(stderr, "usage: compare SEED COUNT [FILE ...]\n");
        return 2;
    }
    uint64_t seed = strtoull(words[1], NULL, 10), inputs = strtoull(words[2], NULL, 10);
    for (uint64_t i = 0; i < inputs; i++)
        compare_input(seed + i);
    for (int i = 3; i < count; i++)
        compare_stored(words[i]);

    int enough = all_seen() || inputs < MANY;
    printf("%lu differences in %llu inputs and %d stored files\n", differences, (unsigned long long)inputs, count - 3);
    return differences != 0 || !enough;
}
