/* Trimming rule by rule, for a lab that signs for each struck rule. The policy file comes from standard input. `show` prints
 * the name of the rule that trimming would strike next, and nothing where every rule does work; `strike` writes the file
 * without the line of the rule that is named, which must be one that does no work. A refused file or name gives no text, a
 * line on standard error and status 1; wrong use, or input or output that fails, a line and status 2.
 *
 *     cc -std=c11 -Iinclude -o target/sign examples/sign.c target/staticlib/libjogimaduve.a
 *     target/sign show < examples/cell.policy
 *     target/sign strike rack-moves < examples/cell.policy > target/signed.policy
 */
#include <inttypes.h>
#include <stdio.h>
#include <string.h>

#include "jogimaduve.h"

int main(int argc, char **argv) {
    static uint8_t file[JOGIMADUVE_LONGEST_FILE + 1]; /* one byte more: a longer file is refused, not cut */
    static uint8_t text[JOGIMADUVE_LONGEST_FILE];
    /* Both words are spelled out: if a name alone meant strike, a script that lost the name would get a rule's name where it
     * expects a policy. */
    int show = argc == 2 && strcmp(argv[1], "show") == 0;
    if (!show && (argc != 3 || strcmp(argv[1], "strike") != 0)) {
        fputs("usage: sign show < FILE, or sign strike RULE < FILE\n", stderr);
        return 2;
    }
    size_t length = fread(file, 1, sizeof file, stdin);
    if (ferror(stdin)) {
        perror("sign: standard input");
        return 2;
    }
    jogimaduve_answer done = show
        ? jogimaduve_next_rule(file, length, text, JOGIMADUVE_LONGEST_NAME)
        : jogimaduve_strike(file, length, (const uint8_t *)argv[2], strlen(argv[2]), text, sizeof text);
    if (done.number != JOGIMADUVE_DONE) {
        fprintf(stderr, "sign: refused %" PRIu32 " %" PRIu32 "\n", done.number, done.second);
        return 1;
    }
    if (show && done.second > 0) text[done.second++] = '\n';
    if (fwrite(text, 1, done.second, stdout) != done.second || fflush(stdout) != 0) {
        perror("sign: standard output");
        return 2;
    }
    return 0;
}
