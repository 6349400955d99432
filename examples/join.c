/* Joins two policy files, the maker's and the lab's, for an arm that takes a single one. The joined text goes to standard
 * output: these are the bytes to load. Else there is no text, a line on standard error tells what was found, and the status is
 * 1; wrong use, or input or output that fails, gives a line and status 2.
 *
 *     cc -std=c11 -Iinclude -o target/join examples/join.c target/staticlib/libjogimaduve.a
 *     target/join deny-overrides examples/maker.policy examples/core.policy > target/joined.policy
 */
#include <errno.h>
#include <inttypes.h>
#include <stdio.h>
#include <string.h>

#include "jogimaduve.h"

struct file {
    uint8_t bytes[JOGIMADUVE_LONGEST_FILE + 1]; /* one byte more: a longer file is refused, not cut */
    size_t length;
};

static int read_file(const char *name, struct file *file) {
    FILE *input = fopen(name, "rb");
    if (input != NULL) file->length = fread(file->bytes, 1, sizeof file->bytes, input);
    int whole = input != NULL && !ferror(input);
    if (!whole) fprintf(stderr, "join: %s: %s\n", name, strerror(errno));
    if (input != NULL) fclose(input);
    return whole;
}

static int is_good(const struct file *file) {
    uint8_t none;
    return jogimaduve_trim(file->bytes, file->length, &none, 0).number == JOGIMADUVE_SHORT_BUFFER;
}

/* Says what was found. Which text a number is for is not told by the answer, but by each file alone. */
static void refuse(jogimaduve_answer found, const struct file *first, const struct file *second) {
    const char *which = "", *what = "";
    if (found.number == JOGIMADUVE_OTHER_ATTRIBUTE) {
        what = ": on this line of the second file, an attribute of the first has another letter or other values";
    } else if (!is_good(first)) {
        which = "first file ";
    } else if (!is_good(second)) {
        which = "second file ";
    } else if (found.number == JOGIMADUVE_BAD_WORD) {
        what = ": no word for a set";
    } else {
        which = "joined text ";
    }
    fprintf(stderr, "join: %srefused %" PRIu32 " %" PRIu32 "%s\n", which, found.number, found.second, what);
}

int main(int argc, char **argv) {
    static struct file first, second;
    static uint8_t text[JOGIMADUVE_LONGEST_FILE]; /* always enough */
    if (argc != 4) {
        fputs("usage: join WORD FIRST SECOND\n", stderr);
        return 2;
    }
    if (!read_file(argv[2], &first) || !read_file(argv[3], &second)) return 2;
    jogimaduve_answer found = jogimaduve_join(first.bytes, first.length, second.bytes, second.length,
                                              (const uint8_t *)argv[1], strlen(argv[1]), text, sizeof text);
    if (found.number != JOGIMADUVE_DONE) {
        refuse(found, &first, &second);
        return 1;
    }
    if (fwrite(text, 1, found.second, stdout) != found.second || fflush(stdout) != 0) {
        perror("join: standard output");
        return 2;
    }
    return 0;
}
