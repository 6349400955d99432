/* A filter: the D lines of a policy file, from standard input to standard output. They tell where two values of an attribute
 * of an M line, which is named, get another decision than one of them alone. A refused file or name gives no text, a line on
 * standard error and status 1; wrong use, or input or output that fails, a line and status 2.
 *
 *     cc -std=c11 -Iinclude -o target/pairs examples/pairs.c target/staticlib/libjogimaduve.a
 *     target/pairs role < examples/badges.policy
 */
#include <inttypes.h>
#include <stdio.h>
#include <string.h>

#include "jogimaduve.h"

int main(int argc, char **argv) {
    static uint8_t file[JOGIMADUVE_LONGEST_FILE + 1]; /* one byte more: a longer file is refused, not cut */
    /* No file has more than 1,755 D lines, 3 pairs of 3 values beside 585 choices, and none is over 51 bytes. */
    static uint8_t text[90000];
    if (argc != 2) {
        fputs("usage: pairs ATTRIBUTE < FILE\n", stderr);
        return 2;
    }
    size_t length = fread(file, 1, sizeof file, stdin);
    if (ferror(stdin)) {
        perror("pairs: standard input");
        return 2;
    }
    jogimaduve_answer listed =
        jogimaduve_value_pairs(file, length, (const uint8_t *)argv[1], strlen(argv[1]), text, sizeof text);
    if (listed.number != JOGIMADUVE_DONE) {
        fprintf(stderr, "pairs: refused %" PRIu32 " %" PRIu32 "\n", listed.number, listed.second);
        return 1;
    }
    if (fwrite(text, 1, listed.second, stdout) != listed.second || fflush(stdout) != 0) {
        perror("pairs: standard output");
        return 2;
    }
    return 0;
}
