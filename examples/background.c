/* An arm controller that goes on deciding while its policy is trimmed in the background, for an arm that cannot stand still
 * meanwhile. The main thread holds the policy and strikes one rule a step. The second thread decides request lines from
 * standard input, one a line, on a copy of its own, which it renews before each request. Every text on the way decides
 * alike, so what is printed does not depend on how far trimming is; at the end stands how many rules were struck.
 *
 *     cc -std=c11 -pthread -Iinclude -o target/background examples/background.c target/staticlib/libjogimaduve.a
 *     printf 'technician\tteach\track\n' | target/background examples/cell.policy
 */
#include <inttypes.h>
#include <pthread.h>
#include <stdio.h>
#include <string.h>

#include "jogimaduve.h"

/* The text that the last step left. A step writes to its text, so no other thread may decide on that: the main thread puts a
 * copy here, and the other thread takes one from here. The lock is held for no longer than it takes to copy. */
static struct {
    pthread_mutex_t lock;
    uint8_t text[JOGIMADUVE_LONGEST_FILE];
    size_t length;
} left = {.lock = PTHREAD_MUTEX_INITIALIZER};

static void put_left(const uint8_t *text, size_t length) {
    pthread_mutex_lock(&left.lock);
    memcpy(left.text, text, length);
    left.length = length;
    pthread_mutex_unlock(&left.lock);
}

static size_t take_left(uint8_t *text) {
    pthread_mutex_lock(&left.lock);
    size_t length = left.length;
    memcpy(text, left.text, length);
    pthread_mutex_unlock(&left.lock);
    return length;
}

/* Says what a request gets. This controller can carry out no obligation, so only a permit without any moves the arm;
 * examples/controller.c knows some. */
static void show(jogimaduve_decision decision, const uint8_t *obligations) {
    static const char *const words[] = {"permit", "deny", "not-applicable", "indeterminate"};
    if (decision.number != JOGIMADUVE_DONE) {
        printf("request refused %" PRIu32 " %" PRIu32, decision.number, decision.second);
    } else {
        printf("%s", words[decision.second]);
        for (size_t at = 0; at < decision.length; at++) {
            if (at == 0 || obligations[at - 1] == '\n') printf(", ");
            if (obligations[at] != '\n') putchar(obligations[at]);
        }
    }
    int moves = decision.number == JOGIMADUVE_DONE && decision.second == JOGIMADUVE_PERMIT && decision.length == 0;
    puts(moves ? ": move" : ": do not move");
    fflush(stdout);
}

/* The second thread, until the requests end. A longer line is cut to one byte more than a request can have, so it is refused. */
static void *decide_requests(void *unused) {
    static uint8_t policy[JOGIMADUVE_LONGEST_FILE];
    uint8_t request[JOGIMADUVE_LONGEST_REQUEST + 1], obligations[JOGIMADUVE_LONGEST_OBLIGATIONS];
    size_t length = 0;
    for (int byte; (byte = getchar()) != EOF;) {
        if (byte != '\n') {
            if (length < sizeof request) request[length++] = (uint8_t)byte;
            continue;
        }
        size_t policy_length = take_left(policy);
        show(jogimaduve_decide(policy, policy_length, request, length, obligations, sizeof obligations), obligations);
        length = 0;
    }
    if (length > 0) puts("line without a newline: do not move");
    return unused;
}

int main(int argc, char **argv) {
    static uint8_t policy[JOGIMADUVE_LONGEST_FILE + 1]; /* one byte more: a longer file is refused, not cut */
    FILE *input = argc == 2 ? fopen(argv[1], "rb") : NULL;
    size_t length = input != NULL ? fread(policy, 1, sizeof policy, input) : 0;
    if (input == NULL || ferror(input)) {
        fputs("usage: background policy-file < requests (the file must be readable)\n", stderr);
        return 2;
    }
    fclose(input);
    /* The first step tells whether the policy is good, before anything is decided by it. */
    jogimaduve_stepped step = jogimaduve_step(policy, length);
    if (step.number != JOGIMADUVE_DONE) {
        printf("policy refused %" PRIu32 " %" PRIu32 ": do not move\n", step.number, step.second);
        return 1;
    }
    put_left(policy, step.second);
    pthread_t decider;
    if (pthread_create(&decider, NULL, decide_requests, NULL) != 0) {
        fputs("background: no second thread\n", stderr);
        return 2;
    }
    unsigned rules = 0;
    for (; step.struck; rules++) {
        step = jogimaduve_step(policy, step.second);
        if (step.struck) put_left(policy, step.second);
    }
    pthread_join(decider, NULL);
    printf("rules struck: %u\n", rules);
    return 0;
}
