/* A filter: the trimmed text of a policy file, from standard input to standard output. A refused file gives no text, a line
 * on standard error and status 1; input or output that fails, a line and status 2.
 *
 *     cc -std=c11 -Iinclude -o target/trim examples/trim.c target/staticlib/libjogimaduve.a
 *     target/trim < examples/cell.policy > target/trimmed.policy
 */
#include <inttypes.h>
#include <stdio.h>

#include "jogimaduve.h"

int main(void) {
    static uint8_t file[JOGIMADUVE_LONGEST_FILE + 1]; /* one byte more: a longer file is refused, not cut */
    static uint8_t text[JOGIMADUVE_LONGEST_FILE];
    size_t length = fread(file, 1, sizeof file, stdin);
    if (ferror(stdin)) {
        perror("trim: standard input");
        return 2;
    }
    jogimaduve_answer trimmed = jogimaduve_trim(file, length, text, sizeof text);
    if (trimmed.number != JOGIMADUVE_DONE) {
        fprintf(stderr, "trim: refused %" PRIu32 " %" PRIu32 "\n", trimmed.number, trimmed.second);
        return 1;
    }
    if (fwrite(text, 1, trimmed.second, stdout) != trimmed.second || fflush(stdout) != 0) {
        perror("trim: standard output");
        return 2;
    }
    return 0;
}
