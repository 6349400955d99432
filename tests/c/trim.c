/* jogimaduve_trim: the text, the bytes behind it, short buffers, refusals. */
#include "text.h"

#define ONE "A\tx\ta\n"
#define BARE ONE "P\t0\ttop\tdeny-overrides\t*\n"
#define THREE                                                                                  \
    "A\tx\ta\tb\tc\nP\t0\ttop\tfirst-applicable\t*\nR\t1\tr1\tpermit\ta\nR\t1\tr2\tdeny\ta,b\n" \
    "R\t1\tr3\tpermit\ta,c\n"
#define HEAD                                                                                           \
    "A\trole\ttech\tguest\nA\tact\tjog\tteach\nP\t0\tcell\tfirst-applicable\t*\t*\n"                   \
    "R\t1\tr1\tpermit\ttech\t*\nR\t1\tr2\tdeny\tguest\tteach\n"
#define CAPITALS                                                                                       \
    "A\tRole\tTech\tguest\nA\tACT\tJog\tteach\nP\t0\tCell\tfirst-applicable\t*\t*\n"                   \
    "R\t1\tR1\tpermit\tTech\t*\nR\t1\trZ\tdeny\tguest\tteach\n"
/* r2 does work while r1 is there: it goes only when the search starts again */
#define AGAIN_TOP "A\tx\ta\tb\nS\t0\ttop\tfirst-applicable\t*\nP\t1\tp0\tdeny-overrides\tb\n"
#define AGAIN_REST "P\t1\tp1\tfirst-applicable\t*\nR\t2\tr3\tdeny\t*\n"

static void trims(const uint8_t *file, size_t size, const uint8_t *text, size_t length, const char *what, int line) {
    gives(jogimaduve_trim, file, size, text, length, what, line);
    /* trimmed again, the same */
    gives(jogimaduve_trim, text, length, text, length, what, line);
}

#define TRIMS(file, text) trims(TEXT(file), TEXT(text), #file, __LINE__)

/* The most that a file can ask: 64 elements, 62 of them rules that each do work, and 4,096 requests. */
static void largest(void) {
    static char file[16384];
    size_t size = 0;
    for (char name = 'x'; name <= 'z'; name++) {
        size += (size_t)sprintf(file + size, "A\t%c", name);
        for (char value = 'a'; value <= 'p'; value++) size += (size_t)sprintf(file + size, "\t%c", value);
        size += (size_t)sprintf(file + size, "\n");
    }
    size += (size_t)sprintf(file + size, "S\t0\ttop\tdeny-overrides\t*\t*\t*\nP\t1\tp\tfirst-applicable\t*\t*\t*\n");
    for (int rule = 0; rule < 62; rule++) {
        size += (size_t)sprintf(file + size, "R\t2\tr%d\t%s\t%c\t%c\t*\n", rule, rule % 2 == 0 ? "permit" : "deny", 'a' + rule % 16, 'a' + rule / 16);
    }
    trims((const uint8_t *)file, size, (const uint8_t *)file, size, "62 rules that do work", __LINE__);
}

int main(void) {
    TRIMS(HEAD "R\t1\tr3\tdeny\t*\tteach\nR\t1\tr4\tpermit\ttech\tjog\n", HEAD);
    TRIMS(CAPITALS "R\t1\tr3-A\tdeny\t*\tteach\nR\t1\tR4\tpermit\tTech\tJog\n", CAPITALS);
    TRIMS(BARE "R\t1\tr1\tpermit\t*\nR\t1\tr2\tpermit\t*\n", BARE "R\t1\tr1\tpermit\t*\n");
    TRIMS(THREE "R\t1\tr4\tdeny\tb\n", THREE);
    TRIMS(BARE, BARE);
    TRIMS(THREE, THREE);
    TRIMS(BARE "R\t1\tr1\tdeny\t*\nR\t1\tr2\tpermit\t*\nR\t1\tr3\tpermit\t*\nR\t1\tr4\tdeny\t*\n", BARE "R\t1\tr1\tdeny\t*\n");
    TRIMS(AGAIN_TOP "R\t2\tr1\tpermit\t*\nR\t2\tr2\tdeny\tb\n" AGAIN_REST, AGAIN_TOP AGAIN_REST);
    largest();
    refuses_bad_files(jogimaduve_trim);
    return checks_done();
}
