/* jogimaduve_join, line by line: the joined text, 19, 7, what reading the joined text refuses, and in which order. */
#include "joined.h"

#define X "A\tx\ta\tb\n"
#define Y "A\ty\tc\td\te\n"
#define MZ "M\tz\tf\tg\n"
#define P1(targets) "P\t0\tp\tfirst-applicable\t" targets "\n"
#define Q1(targets) "P\t0\tq\tdeny-overrides\t" targets "\n"
#define J(word, targets) "S\t0\tjoined\t" word "\t" targets "\n"
#define CP(targets) "P\t1\tp\tfirst-applicable\t" targets "\n"
#define CQ(targets) "P\t1\tq\tdeny-overrides\t" targets "\n"

static void texts(void) {
    static const char *const words[] = {DENY, PERMIT, FIRST, ONLY};
    for (int i = 0; i < 4; i++) {
        char text[200];
        size_t length = (size_t)sprintf(text, X "S\t0\tjoined\t%s\t*\n" CP("*") CQ("b"), words[i]);
        joins(TEXT(X P1("*")), TEXT(X Q1("b")), words[i], (const uint8_t *)text, length, words[i], __LINE__);
    }
    /* attributes of both, of the first, of the second */
    JOINS(X P1("a"), Y Q1("c,d"), FIRST, X Y J(FIRST, "*\t*") CP("a\t*") CQ("*\tc,d"));
    JOINS(X Y P1("a\te"), X Q1("b"), FIRST, X Y J(FIRST, "*\t*") CP("a\te") CQ("b\t*"));
    JOINS(X Y P1("a\te"), Y Q1("c"), FIRST, X Y J(FIRST, "*\t*") CP("a\te") CQ("*\tc"));
    JOINS(X P1("a"), X Y Q1("b\tc"), FIRST, X Y J(FIRST, "*\t*") CP("a\t*") CQ("b\tc"));
    JOINS(X P1("a"), Y X Q1("c\tb"), FIRST, X Y J(FIRST, "*\t*") CP("a\t*") CQ("b\tc"));
    JOINS(X Y MZ P1("a\tc\tf"), MZ X Y Q1("g\tb\td"), FIRST, X Y MZ J(FIRST, "*\t*\t*") CP("a\tc\tf") CQ("b\td\tg"));
    JOINS(X Y MZ P1("a\tc\tf"), Y MZ X Q1("d\tg\tb"), FIRST, X Y MZ J(FIRST, "*\t*\t*") CP("a\tc\tf") CQ("b\td\tg"));
    JOINS(X Y MZ P1("a\tc\tf"), MZ Y X Q1("g\td\tb"), FIRST, X Y MZ J(FIRST, "*\t*\t*") CP("a\tc\tf") CQ("b\td\tg"));
    JOINS(Y P1("d,e"), MZ Y X Q1("g\tc,e\ta"), FIRST, Y MZ X J(FIRST, "*\t*\t*") CP("d,e\t*\t*") CQ("c,e\tg\ta"));
    JOINS(Y P1("d,e"), X MZ Q1("b\tf"), FIRST, Y X MZ J(FIRST, "*\t*\t*") CP("d,e\t*\t*") CQ("*\tb\tf"));
    /* the first file's spelling of a name, the second's of its own */
    JOINS("A\tRole\tTech\tguest\n" P1("Tech"), "A\tShift\tDay\tnight\nA\trOLE\tTech\tguest\n" Q1("Day\tguest"), FIRST,
          "A\tRole\tTech\tguest\nA\tShift\tDay\tnight\n" J(FIRST, "*\t*") CP("Tech\t*") CQ("guest\tDay"));
    JOINS("A\tname-of-16-bytes\tvalue-of-16-byte\tb\n" P1("value-of-16-byte"), "A\tName-Of-16-Bytes\tvalue-of-16-byte\tb\n" Q1("b"), FIRST,
          "A\tname-of-16-bytes\tvalue-of-16-byte\tb\n" J(FIRST, "*") CP("value-of-16-byte") CQ("b"));
    /* names that are not equal: of other length, of other bytes */
    JOINS("A\tx\ta\n" P1("*"), "A\txx\tb\nA\tx-\tc\nA\ty\td\n" Q1("*\t*\t*"), FIRST, "A\tx\ta\nA\txx\tb\nA\tx-\tc\nA\ty\td\n" J(FIRST, "*\t*\t*\t*") CP("*\t*\t*\t*") CQ("*\t*\t*\t*"));
    JOINS("A\tx0\ta\n" P1("*"), "A\txP\tb\n" Q1("*"), FIRST, "A\tx0\ta\nA\txP\tb\n" J(FIRST, "*\t*") CP("*\t*") CQ("*\t*"));
    /* trees and obligations */
    JOINS(X "S\t0\tlab\tonly-one-applicable\t*\nO\tlog\tpermit\nO\tstop\tdeny\nP\t1\tbench\tdeny-overrides\ta\nO\tLog\tpermit\nR\t2\tr1\tpermit\t*\nS\t1\tempty\tpermit-overrides\tb\nP\t1\tlast\tfirst-applicable\t*\nR\t2\tr2\tdeny\tb\n",
          Y "S\t0\tmaker\tdeny-overrides\tc\nS\t1\tin\tdeny-overrides\t*\nP\t2\tdeep\tdeny-overrides\t*\nO\tlog\tdeny\nR\t3\tr3\tdeny\tc,e\nR\t3\tr4\tpermit\td\n", ONLY,
          X Y J(ONLY, "*\t*") "S\t1\tlab\tonly-one-applicable\t*\t*\nO\tlog\tpermit\nO\tstop\tdeny\nP\t2\tbench\tdeny-overrides\ta\t*\nO\tLog\tpermit\nR\t3\tr1\tpermit\t*\t*\nS\t2\tempty\tpermit-overrides\tb\t*\nP\t2\tlast\tfirst-applicable\t*\t*\nR\t3\tr2\tdeny\tb\t*\n"
          "S\t1\tmaker\tdeny-overrides\t*\tc\nS\t2\tin\tdeny-overrides\t*\t*\nP\t3\tdeep\tdeny-overrides\t*\t*\nO\tlog\tdeny\nR\t4\tr3\tdeny\t*\tc,e\nR\t4\tr4\tpermit\t*\td\n");
    /* an obligation, an attribute or a value may be called `joined`, or as an element of the other file */
    JOINS("A\tq\ta\n" P1("*"), "A\tp\ta\n" Q1("*"), FIRST, "A\tq\ta\nA\tp\ta\n" J(FIRST, "*\t*") CP("*\t*") CQ("*\t*"));
    JOINS("A\tjoined\tq\tb\n" P1("q") "O\tq\tdeny\nO\tjoined\tdeny\n", "A\tp\tjoined\tx\n" Q1("joined"), FIRST,
          "A\tjoined\tq\tb\nA\tp\tjoined\tx\n" J(FIRST, "*\t*") CP("q\t*") "O\tq\tdeny\nO\tjoined\tdeny\n" CQ("*\tjoined"));
    JOINS(X "P\t0\tjoine\tfirst-applicable\t*\n", X "P\t0\tjoined0\tfirst-applicable\t*\nR\t1\tunjoined\tdeny\t*\n", FIRST,
          X J(FIRST, "*") "P\t1\tjoine\tfirst-applicable\t*\nP\t1\tjoined0\tfirst-applicable\t*\nR\t2\tunjoined\tdeny\t*\n");
}

#define U(a, b) "A\tu\t" a "\t" b "\n"
#define V "A\tv\tc\td\n"
#define W "M\tw\te\tf\n"
#define T "A\tt\tg\th\n"

/* Six attributes in other orders, and the last of them in another form. */
static void six(void) {
    JOINS(U("i", "j") V W T X MZ P1("i\tc\te\tg\ta\tf"), MZ X T W V U("i", "j") Q1("g\tb\th\tf\td\tj"), ONLY,
          U("i", "j") V W T X MZ J(ONLY, "*\t*\t*\t*\t*\t*") CP("i\tc\te\tg\ta\tf") CQ("j\td\tf\th\tb\tg"));
    JOINS(U("i", "j") V W T X MZ P1("i\tc\te\tg\ta\tf"), V W T X MZ U("i", "j") Q1("d\tf\th\tb\tg\tj"), ONLY,
          U("i", "j") V W T X MZ J(ONLY, "*\t*\t*\t*\t*\t*") CP("i\tc\te\tg\ta\tf") CQ("j\td\tf\th\tb\tg"));
    JOINS(V T P1("c\tg"), X T U("i", "j") W V MZ Q1("a\th\tj\te\td\t*"), ONLY,
          V T X U("i", "j") W MZ J(ONLY, "*\t*\t*\t*\t*\t*") CP("c\tg\t*\t*\t*\t*") CQ("d\th\ta\tj\te\t*"));
    JOINS(X T U("i", "j") W V MZ P1("a\th\tj\te\td\t*"), T V Q1("g\tc"), ONLY,
          X T U("i", "j") W V MZ J(ONLY, "*\t*\t*\t*\t*\t*") CP("a\th\tj\te\td\t*") CQ("*\tg\t*\t*\tc\t*"));
    REFUSES(U("i", "j") V W T X MZ P1("*\t*\t*\t*\t*\t*"), MZ X T W V U("j", "i") Q1("*\t*\t*\t*\t*\t*"), ONLY, 19, 6);
    REFUSES(U("i", "j") V W T X MZ P1("*\t*\t*\t*\t*\t*"), V W T X MZ U("i", "J") Q1("*\t*\t*\t*\t*\t*"), ONLY, 19, 6);
    REFUSES(U("i", "j") V W T X MZ P1("*\t*\t*\t*\t*\t*"), U("i", "k") V W T X MZ Q1("*\t*\t*\t*\t*\t*"), ONLY, 19, 1);
}

/* 19: the second file's first line that is not as the first file has it. */
static void other_attributes(void) {
    REFUSES(X P1("*"), "M\tx\ta\tb\n" Q1("*"), DENY, 19, 1);
    REFUSES("M\tx\ta\tb\n" P1("*"), X Q1("*"), DENY, 19, 1);
    REFUSES("M\tx\ta\n" P1("*"), "A\tx\ta\n" Q1("*"), DENY, 19, 1);
    REFUSES(X P1("*"), "A\tx\tb\ta\n" Q1("*"), DENY, 19, 1);
    REFUSES(X P1("*"), "A\tx\ta\n" Q1("*"), DENY, 19, 1);
    REFUSES("A\tx\ta\n" P1("*"), X Q1("*"), DENY, 19, 1);
    REFUSES(X P1("*"), "A\tx\ta\tb\tc\n" Q1("*"), DENY, 19, 1);
    REFUSES(X P1("*"), "A\tx\ta\tB\n" Q1("*"), DENY, 19, 1);
    REFUSES(X P1("*"), "A\tx\tA\tb\n" Q1("*"), DENY, 19, 1);
    REFUSES(X P1("*"), "A\tX\tA\tb\n" Q1("*"), DENY, 19, 1);
    REFUSES(X P1("*"), "A\tx\ta\tbb\n" Q1("*"), DENY, 19, 1);
    REFUSES(X P1("*"), "A\tx\taa\tb\n" Q1("*"), DENY, 19, 1);
    REFUSES("A\tx\tab\tc\n" P1("*"), "A\tx\ta\tbc\n" Q1("*"), DENY, 19, 1);
    REFUSES("A\tx\tvalue-of-16-byta\n" P1("*"), "A\tx\tvalue-of-16-bytb\n" Q1("*"), DENY, 19, 1);
    REFUSES("A\tx\tvalue-of-16-byta\n" P1("*"), "A\tx\tValue-of-16-byta\n" Q1("*"), DENY, 19, 1);
    /* which line, whatever the first file's order */
    REFUSES(X Y P1("*\t*"), Y "A\tx\tb\ta\n" Q1("*\t*"), DENY, 19, 2);
    REFUSES(X Y P1("*\t*"), "A\tx\tb\ta\nM\ty\tc\td\te\n" Q1("*\t*"), DENY, 19, 1);
    REFUSES(X Y P1("*\t*"), "M\tY\tc\td\te\nA\tx\tb\ta\n" Q1("*\t*"), DENY, 19, 1);
    REFUSES(Y X P1("*\t*"), "A\tw\tb\ta\nA\tx\ta\tb\nA\tv\tc\nA\ty\tc\td\tE\n" Q1("*\t*\t*\t*"), DENY, 19, 4);
    REFUSES(Y X P1("*\t*"), "A\tw\tb\ta\nA\tX\tb\ta\nA\tv\tc\nA\ty\tc\td\tE\n" Q1("*\t*\t*\t*"), DENY, 19, 2);
    /* before the word and what the joined text has */
    REFUSES(X P1("*"), "A\tx\ta\n" Q1("*"), "", 19, 1);
    REFUSES(X P1("*"), "A\tx\ta\nP\t0\tjoined\tdeny-overrides\t*\nR\t1\tp\tdeny\t*\n", DENY, 19, 1);
}

static void words(void) {
    static const char *const bad[] = {
        "", "d", "deny", "permit", "deny-override", "deny-overridess", "Deny-overrides", "deny-overrideS", "DENY-OVERRIDES", "deny_overrides",
        "deny-overrides\n", "deny-overrides\t", "\tdeny-overrides", "deny-overrides\t*", "deny-overrides ", "deny\noverrides", "permit-Overrides",
        "First-applicable", "first-applicabl", "first-applicable,", "only-one-Applicable", "only-one-applicable\n", "only-one-applicablee",
        "joined", "*", "S", "\n", "\t", "\xe4", "eny-overrides", "permit-overridet", "only-one-applicablf", "deny-overridesdeny-overrides",
    };
    for (size_t i = 0; i < sizeof bad / sizeof *bad; i++) {
        const uint8_t *word = (const uint8_t *)bad[i];
        size_t length = strlen(bad[i]);
        refuses_both(TEXT(X P1("*")), TEXT(X Q1("*")), word, length, 7, 2, bad[i], __LINE__);
        refuses_both(TEXT(X P1("*")), TEXT(Y Q1("*")), word, length, 7, 3, bad[i], __LINE__);
        refuses_both(TEXT(X Y P1("*\t*")), TEXT(MZ Y Q1("*\t*")), word, length, 7, 4, bad[i], __LINE__);
        refuses_both(TEXT(X P1("*")), TEXT(X P1("*")), word, length, 7, 2, bad[i], __LINE__); /* 4 would be next */
    }
    refuses_both(TEXT(X P1("*")), TEXT(X Q1("*")), TEXT("deny-overrides\0"), 7, 2, "a zero byte behind", __LINE__);
    refuses_both(TEXT(X P1("*")), TEXT(X Q1("*")), TEXT("\0deny-overrides"), 7, 2, "a zero byte before", __LINE__);
    /* as long as a good one, but for 256 or 65,536 bytes more */
    static uint8_t longer[65536 + sizeof DENY];
    memset(longer, 'x', sizeof longer);
    memcpy(longer, DENY, strlen(DENY));
    answers(jogimaduve_join(TEXT(X P1("*")), TEXT(X Q1("*")), longer, 256 + strlen(DENY), buffer, ROOM), 7, 2, "256 bytes more", __LINE__);
    answers(jogimaduve_join(TEXT(X P1("*")), TEXT(X Q1("*")), longer, 65536 + strlen(DENY), buffer, ROOM), 7, 2, "65,536 bytes more", __LINE__);
    check(untouched(0), "a long word", __LINE__);
}

/* Names that are used before in the joined text. */
static void used_names(void) {
    REFUSES(X P1("*"), X P1("*"), DENY, 4, 4);
    REFUSES(X P1("*"), X "P\t0\tP\tdeny-overrides\t*\n", DENY, 4, 4);
    REFUSES(X P1("*") "R\t1\tr\tdeny\t*\n", X Q1("*") "R\t1\tr\tdeny\t*\n", DENY, 4, 6);
    REFUSES(X P1("*") "R\t1\tr\tdeny\t*\n", X Q1("*") "O\to\tdeny\nR\t1\ts\tdeny\t*\nR\t1\tR\tdeny\t*\n", DENY, 4, 8);
    REFUSES(X P1("*") "R\t1\tq\tdeny\t*\n", X Q1("*") "R\t1\tr\tdeny\t*\n", DENY, 4, 5);
    REFUSES(X P1("*") "O\to\tdeny\nR\t1\tr\tdeny\t*\n", X Y Q1("*\t*") "R\t1\tr\tdeny\t*\tc\nR\t1\tp\tdeny\t*\tc\n", DENY, 4, 8);
    REFUSES(X "P\t0\tname-of-16-bytes\tdeny-overrides\t*\n", X "P\t0\tname-of-16-byteS\tdeny-overrides\t*\n", DENY, 4, 4);
    REFUSES(X "P\t0\tjoined\tdeny-overrides\t*\n", X Q1("*"), DENY, 4, 3);
    REFUSES(X P1("*") "R\t1\tjoined\tdeny\t*\n", X Q1("*"), DENY, 4, 4);
    REFUSES(X P1("*"), X "P\t0\tjoined\tdeny-overrides\t*\n", DENY, 4, 4);
    REFUSES(X P1("*"), X Q1("*") "R\t1\tJoined\tdeny\t*\n", DENY, 4, 5);
    REFUSES(X P1("*"), Y Q1("*") "R\t1\tJOINED\tdeny\t*\n", DENY, 4, 6);
    REFUSES(X "P\t0\tJoineD\tdeny-overrides\t*\n", X P1("*"), DENY, 4, 3);
}

/* Each of two files that reading refuses, in each place. */
static void refusals(void) {
    static const struct { const char *file; uint32_t number, second; } bad[] = {
        {"", 9, 0}, {X, 9, 0}, {"\n", 2, 1}, {X "P\t0\tp\tfirst-applicable\t*", 2, 2}, {X P1("*\t*"), 2, 2}, {X P1("*") "R\t1\t-\tdeny\t*\n", 3, 3},
        {X X P1("*\t*"), 4, 2}, {"A\tx\t0\t1\t2\t3\t4\t5\t6\t7\t8\t9\ta\tb\tc\td\te\tf\tg\n", 5, 1}, {X P1("*") "R\t2\tr\tdeny\t*\n", 6, 3},
        {X "P\t0\tp\tonly-one-applicable\t*\n", 7, 2}, {X P1("*") "R\t1\tr\tdeny\ta,b\n", 8, 3}, {X P1("*") "R\t1\tr\tdeny\t*\nO\to\tdeny\n", 14, 4},
    };
    size_t count = sizeof bad / sizeof *bad;
    for (size_t i = 0; i < count; i++) {
        const uint8_t *file = (const uint8_t *)bad[i].file;
        size_t size = strlen(bad[i].file);
        refuses_both(file, size, TEXT(X Q1("*")), TEXT(DENY), bad[i].number, bad[i].second, "the first refused", __LINE__);
        refuses_both(TEXT(X Q1("*")), file, size, TEXT(DENY), bad[i].number, bad[i].second, "the second refused", __LINE__);
        refuses_both(TEXT("M\tx\ta\n" Q1("*")), file, size, TEXT(""), bad[i].number, bad[i].second, "before 19 and 7", __LINE__);
        refuses_both(file, size, file, size, TEXT(""), bad[i].number, bad[i].second, "one file in both places", __LINE__);
        for (size_t j = 0; j < count; j++) refuses_both(file, size, (const uint8_t *)bad[j].file, strlen(bad[j].file), TEXT(DENY), bad[i].number, bad[i].second, "both refused", __LINE__);
    }
    other_file = (const uint8_t *)(X Q1("*"));
    other_length = sizeof(X Q1("*")) - 1;
    given_word = (const uint8_t *)DENY;
    word_length = sizeof DENY - 1;
    refuses_bad_files(join_here);
}

/* Files and the word from one memory. */
static void overlapping(void) {
    static const char file[] = X P1("*") "R\t1\tr\tdeny\t*\n";
    const uint8_t *bytes = (const uint8_t *)file;
    size_t size = sizeof file - 1, bare = sizeof(X P1("*")) - 1, word = sizeof(X "P\t0\tp\t") - 1;
    memset(buffer, FILLED, ROOM);
    answers(jogimaduve_join(bytes, size, bytes, size, bytes + word, strlen(FIRST), buffer, ROOM), 4, 5, "the same file", __LINE__);
    answers(jogimaduve_join(bytes, bare, bytes, size, bytes + word, strlen(FIRST), buffer, ROOM), 4, 4, "its beginning", __LINE__);
    answers(jogimaduve_join(bytes, size, bytes, bare, bytes + word, strlen(FIRST) - 1, buffer, ROOM), 7, 2, "a word cut", __LINE__);
    answers(jogimaduve_join(bytes, size, bytes, bare, bytes, 0, buffer, ROOM), 7, 2, "no word", __LINE__);
    answers(jogimaduve_join(bytes, 0, bytes, size, bytes + word, strlen(FIRST), buffer, ROOM), 9, 0, "nothing of it", __LINE__);
    check(untouched(0), "overlapping", __LINE__);
    /* the word on the second file's line */
    other_file = (const uint8_t *)(X Q1("b"));
    other_length = sizeof(X Q1("b")) - 1;
    given_word = other_file + sizeof(X "P\t0\tq\t") - 1;
    word_length = strlen(DENY);
    gives(join_here, bytes, size, TEXT(X J(DENY, "*") CP("*") "R\t2\tr\tdeny\t*\n" CQ("b")), "the word of the second file", __LINE__);
}

int main(void) {
    texts();
    six();
    other_attributes();
    words();
    used_names();
    refusals();
    overlapping();
    return checks_done();
}
