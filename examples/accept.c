/* A controller's loader for files that a lab's own optimiser trimmed. The proposal goes to standard output if it is sound
 * beside the original, which is the lab's file: these are the bytes to load. Else there is no text, a line on standard error
 * tells what was found, and the status is 1; wrong use, or input or output that fails, gives a line and status 2.
 *
 *     cc -std=c11 -Iinclude -o target/accept examples/accept.c target/staticlib/libjogimaduve.a
 *     target/accept examples/cell.policy target/trimmed.policy > target/loaded.policy
 */
#include <errno.h>
#include <inttypes.h>
#include <stdio.h>
#include <string.h>

#include "jogimaduve.h"

struct file {
    uint8_t bytes[JOGIMADUVE_LONGEST_FILE + 1]; /* one byte more: a longer file is refused, not cut */
    size_t length;
};

static int read_file(const char *name, struct file *file) {
    FILE *input = fopen(name, "rb");
    if (input != NULL) file->length = fread(file->bytes, 1, sizeof file->bytes, input);
    int whole = input != NULL && !ferror(input);
    if (!whole) fprintf(stderr, "accept: %s: %s\n", name, strerror(errno));
    if (input != NULL) fclose(input);
    return whole;
}

/* Says what was found. Which file is no policy is not told by the answer: the proposal, if the original alone is good. */
static void refuse(jogimaduve_answer found, const struct file *original) {
    uint8_t none;
    const char *which = "";
    if (found.number < JOGIMADUVE_OTHER_LINE) {
        int good = jogimaduve_trim(original->bytes, original->length, &none, 0).number == JOGIMADUVE_SHORT_BUFFER;
        which = good ? "proposal " : "original ";
    }
    fprintf(stderr, "accept: %srefused %" PRIu32 " %" PRIu32, which, found.number, found.second);
    if (found.number == JOGIMADUVE_OTHER_LINE && found.second > 0) {
        fprintf(stderr, ": line %" PRIu32 " of the proposal is not the next line of the original", found.second);
    } else if (found.number == JOGIMADUVE_OTHER_LINE) {
        fprintf(stderr, ": the proposal ends before a line of the original that is no rule");
    } else if (found.number == JOGIMADUVE_OTHER_OUTCOME) {
        fprintf(stderr, ": request %" PRIu32 " gets another decision, or other obligations", found.second);
    } else if (found.number == JOGIMADUVE_NEEDLESS_RULE) {
        fprintf(stderr, ": the rule on line %" PRIu32 " of the proposal does no work", found.second);
    }
    fputc('\n', stderr);
}

int main(int argc, char **argv) {
    static struct file original, proposal;
    if (argc != 3) {
        fputs("usage: accept ORIGINAL PROPOSAL\n", stderr);
        return 2;
    }
    if (!read_file(argv[1], &original) || !read_file(argv[2], &proposal)) return 2;
    jogimaduve_answer found = jogimaduve_accept(original.bytes, original.length, proposal.bytes, proposal.length);
    if (found.number != JOGIMADUVE_DONE) {
        refuse(found, &original);
        return 1;
    }
    if (fwrite(proposal.bytes, 1, proposal.length, stdout) != proposal.length || fflush(stdout) != 0) {
        perror("accept: standard output");
        return 2;
    }
    return 0;
}
