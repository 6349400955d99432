/* An arm controller's loop: loads a policy file, trims it, then decides request lines from standard input, one a line.
 * Only permit moves the arm, and only if the controller can carry out every obligation that comes with it. Deny,
 * not-applicable, indeterminate and every refusal leave it where it is.
 *
 *     cc -std=c11 -Iinclude -o target/controller examples/controller.c target/staticlib/libjogimaduve.a
 *     printf 'technician\tteach\track\n' | target/controller examples/cell.policy
 */
#include <inttypes.h>
#include <stdio.h>
#include <string.h>

#include "jogimaduve.h"

/* The obligations that this controller can carry out. A real one has code for each: here they are said. */
static const char *const known[] = {"log-move", "lower-speed", "sound-alarm"};

static int is_known(const uint8_t *name, size_t length) {
    for (size_t i = 0; i < sizeof known / sizeof *known; i++) {
        if (strlen(known[i]) == length && memcmp(known[i], name, length) == 0) return 1;
    }
    return 0;
}

/* Says the obligations, which are names with a newline behind each; whether all of them are known. */
static int carries_out(const uint8_t *names, size_t length) {
    int all = 1;
    for (size_t at = 0, end; at < length; at = end + 1) {
        for (end = at; names[end] != '\n';) end++;
        int one = is_known(names + at, end - at);
        printf(", %.*s%s", (int)(end - at), (const char *)names + at, one ? "" : " (unknown)");
        all = all && one;
    }
    return all;
}

static void refused(const char *what, uint32_t number, uint32_t second) {
    printf("%s refused %" PRIu32 " %" PRIu32 ": do not move\n", what, number, second);
    fflush(stdout);
}

/* Says what a request gets, and moves the arm on a permit whose obligations are carried out. */
static void show(jogimaduve_decision decision, const uint8_t *obligations) {
    static const char *const words[] = {"permit", "deny", "not-applicable", "indeterminate"};
    if (decision.number != JOGIMADUVE_DONE) {
        refused("request", decision.number, decision.second);
        return;
    }
    printf("%s", words[decision.second]);
    int carried_out = carries_out(obligations, decision.length);
    puts(decision.second == JOGIMADUVE_PERMIT && carried_out ? ": move" : ": do not move");
    fflush(stdout);
}

/* Reads a line up to its newline. A longer one is cut to one byte more than a request can have, so it is refused. */
static int read_line(uint8_t *line, size_t *length) {
    int byte;
    *length = 0;
    while ((byte = getchar()) != EOF && byte != '\n') {
        if (*length <= JOGIMADUVE_LONGEST_REQUEST) line[(*length)++] = (uint8_t)byte;
    }
    return byte == '\n';
}

int main(int argc, char **argv) {
    static uint8_t file[JOGIMADUVE_LONGEST_FILE + 1]; /* one byte more: a longer file is refused, not cut */
    static uint8_t policy[JOGIMADUVE_LONGEST_FILE];
    uint8_t request[JOGIMADUVE_LONGEST_REQUEST + 1];
    uint8_t obligations[JOGIMADUVE_LONGEST_OBLIGATIONS];
    FILE *input = argc == 2 ? fopen(argv[1], "rb") : NULL;
    size_t length = input != NULL ? fread(file, 1, sizeof file, input) : 0;
    if (input == NULL || ferror(input)) {
        fputs("usage: controller policy-file < requests (the file must be readable)\n", stderr);
        return 2;
    }
    fclose(input);
    jogimaduve_answer trimmed = jogimaduve_trim(file, length, policy, sizeof policy);
    if (trimmed.number != JOGIMADUVE_DONE) {
        refused("policy", trimmed.number, trimmed.second);
        return 1;
    }
    while (read_line(request, &length)) {
        show(jogimaduve_decide(policy, trimmed.second, request, length, obligations, sizeof obligations), obligations);
    }
    if (length > 0) puts("line without a newline: do not move");
    return 0;
}
