/* Damages that concern obligations: their lines made bad, too many, or put where none may stand. Some leave a good
 * file. */
#include "generate.h"

#include <string.h>

#define ONE_OF(strings) ((strings)[below(sizeof(strings) / sizeof *(strings))])

#define OBLIGATION_LINE "O"

/* An obligation's line, most often a good one. */
static const char *any_line(void)
{
    static const char *const good[] = {"O\tlog\tpermit\n", "O\tLog\tdeny\n", "O\tslow\tpermit\n", "O\tthird\tdeny\n"};
    static const char *const bad[] = {
        "O\tthird\tno\n", "O\tthird\tPermit\n", "O\tthird\tdeny-overrides\n", "O\tth_rd\tpermit\n", "O\t-\tno\n",
        "O\tname-of-17-bytes-\tdeny\n", "O\tthird\n", "O\n", "O\tthird\tpermit\t*\n", "O\t\tpermit\n", "o\tthird\tdeny\n",
        "OO\tthird\tdeny\n", "O\tthird\tpermit", "O\tl_g\t*\n",
    };
    return one_in(2) ? ONE_OF(good) : ONE_OF(bad);
}

/* Behind the line that stands at a place. */
static size_t behind(const struct bytes *file, size_t line, size_t length)
{
    return line + length + (line + length < file->length);
}

/* Behind a rule, an attribute, a policy or set, another obligation, or as line 1. */
static void put_line(struct bytes *file)
{
    static const char *const letters[] = {"R", "R", ATTRIBUTE_LINE, "SP", OBLIGATION_LINE, OBLIGATION_LINE};
    const char *line = any_line();
    size_t length, at = pick_line(file, ONE_OF(letters), &length);

    replace(file, one_in(10) ? 0 : behind(file, at, length), 0, line, strlen(line));
}

/* The same name again on the next line, perhaps in other case, perhaps with another word. */
static void put_again(struct bytes *file)
{
    static const char *const words[] = {"\tpermit\n", "\tdeny\n", "\tno\n"};
    uint8_t line[40] = "O\t";
    size_t length, count, at = pick_line(file, OBLIGATION_LINE, &length), name = field_of(file, at, length, 1, &count);
    const char *word = ONE_OF(words);

    if (length == 0 || file->bytes[at] != 'O' || count > NAME_BYTES)
        return;
    memcpy(line + 2, file->bytes + name, count);
    if (one_in(2))
        turn_case(line + 2, count);
    memcpy(line + 2 + count, word, strlen(word));
    replace(file, behind(file, at, length), 0, line, 2 + count + strlen(word));
}

/* Up to three at once behind a policy or set. */
static void put_more(struct bytes *file)
{
    static const char *const lines[] = {
        "O\tmore-1\tpermit\n", "O\tmore-1\tdeny\nO\tmore-2\tpermit\n",
        "O\tmore-1\tdeny\nO\tmore-2\tdeny\nO\tmore-3\tpermit\n",
        "O\tmore-1\tdeny\nO\tmore-2\tdeny\nO\tMORE-1\tno\n", "O\tmore-1\tdeny\nO\tmore-2\tdeny\nO\tmore-3\tno\n",
        "O\tmore-1\tdeny\nO\tmore-2\tdeny\nO\tm\"\tno\n", "O\tmore-1\tdeny\nO\tmore-2\tdeny\nO\tmore-3\n",
    };
    const char *line = ONE_OF(lines);
    size_t length, at = pick_line(file, "SP", &length);

    replace(file, behind(file, at, length), 0, line, strlen(line));
}

void damage_obligations(struct bytes *file)
{
    static const char *const words[] = {
        "deny", "permit", "Deny", "permits", "*", "deny-overrides", "first-applicable", "only-one-applicable", "-",
    };
    static const char *const names[] = {
        "log", "LOG", "-log", "l_g", "name-of-16-bytes", "name-of-17-bytes-", "*", "x,y", "@", "O",
    };
    static const char *const behind_it[] = {"A\tlate\ta\n", "M\tlate\ta\tb\n", "A\tlate\n", "\n"};
    const char *line = ONE_OF(behind_it);
    size_t length, at = pick_line(file, OBLIGATION_LINE, &length);

    switch (below(12)) {
    case 0: case 1: case 2: put_line(file); break;
    case 3: case 4: put_again(file); break;
    case 5: case 6: put_more(file); break;
    case 7: set_field(file, OBLIGATION_LINE, 1, ONE_OF(names)); break;
    case 8: set_field(file, OBLIGATION_LINE, 2, ONE_OF(words)); break;
    case 9: replace(file, behind(file, at, length), 0, line, strlen(line)); break;
    case 10: set_field(file, OBLIGATION_LINE, 0, one_in(2) ? "o" : "R"); break;
    default: set_field(file, TREE_LINE, 0, "O"); break;
    }
}
