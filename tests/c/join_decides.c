/* What joined files decide, and what the other operations make of them: every request gets what the word makes of the two
 * files' decisions, each on its own attributes. */
#include "joined.h"
#include "outcome.h"

enum { MOST = 1000, PERMITTED = JOGIMADUVE_PERMIT, DENIED = JOGIMADUVE_DENY, SILENT = JOGIMADUVE_NOT_APPLICABLE, UNSURE = JOGIMADUVE_INDETERMINATE };

static const char *const given[] = {DENY, PERMIT, FIRST, ONLY};

/* Trees over an attribute with the values 1 and 2 and an M with 3 and 4; # is the file's letter. `one` and `set` are the first
 * element's target. */
static const struct tree { const char *one, *set, *text; } trees[] = {
    {"*", "*", "P\t0\t#\tfirst-applicable\t*\t*\nO\t#-go\tpermit\nO\tstop\tdeny\nR\t1\t#1\tpermit\t1\t*\nR\t1\t#2\tdeny\t2\t3\n"},
    {"1", "*", "P\t0\t#\tdeny-overrides\t1\t*\nO\t#-no\tdeny\nR\t1\t#1\tdeny\t*\t4\n"},
    {"*", "4", "S\t0\t#\tpermit-overrides\t*\t4\nO\t#-go\tpermit\nP\t1\t#p\tfirst-applicable\t*\t*\nO\tslow\tpermit\nR\t2\t#1\tpermit\t2\t*\nP\t1\t#q\tfirst-applicable\t*\t*\nO\tstop\tdeny\nR\t2\t#2\tdeny\t*\t*\n"},
    {"*", "*", "S\t0\t#\tonly-one-applicable\t*\t*\nO\t#-go\tpermit\nO\t#-no\tdeny\nP\t1\t#p\tfirst-applicable\t*\t3\nR\t2\t#1\tpermit\t*\t*\nP\t1\t#q\tfirst-applicable\t2\t*\nR\t2\t#2\tdeny\t*\t*\n"},
    {"*", "*", "P\t0\t#\tdeny-overrides\t*\t*\nO\t#-go\tpermit\n"},
    {"2", "3", "P\t0\t#\tdeny-overrides\t2\t3\nO\tgo\tpermit\nO\tGone\tdeny\nR\t1\t#1\tpermit\t*\t*\nR\t1\t#2\tdeny\t*\t4\n"},
    {"*", "*", "S\t0\t#\tonly-one-applicable\t*\t*\nS\t1\t#p\tdeny-overrides\t*\t*\nS\t1\t#q\tdeny-overrides\t*\t*\n"},
};
enum { TREES = sizeof trees / sizeof *trees };

struct side { char file[MOST]; size_t size; const struct tree *tree; char attribute; int matches; struct outcome outcome; };

static void make_side(struct side *side, const char *lines, char letter, char attribute, const struct tree *tree) {
    side->tree = tree;
    side->attribute = attribute;
    side->size = (size_t)sprintf(side->file, "%s", lines);
    for (const char *at = tree->text; *at != '\0'; at++) side->file[side->size++] = *at == '#' ? letter : *at;
}

static int shares(const char *target, const char *values) {
    return *target == '*' || strchr(values, *target) != NULL;
}

/* Of a joined request, which holds one value of x, a set of y, one value of z. */
static void ask_side(struct side *side, char x, const char *y, char z) {
    char request[20], value = side->attribute == 'x' ? x : z, one[] = {value, '\0'};
    int length = sprintf(request, "%c\t%s", value, y);
    jogimaduve_decision got = jogimaduve_decide((const uint8_t *)side->file, side->size, (const uint8_t *)request, (size_t)length, side->outcome.obligations, sizeof side->outcome.obligations);
    if (got.number != 0) check(0, request, __LINE__);
    side->outcome.decision = got.second;
    side->outcome.length = got.length;
    side->matches = shares(side->tree->one, one) && shares(side->tree->set, y);
}

/* The decision of a file that is asked; a file that isn't says nothing. */
static uint32_t combine(int word, const struct side side[2], int asked[2]) {
    uint32_t one = side[0].outcome.decision, other = side[1].outcome.decision;
    asked[0] = 1;
    if (word == 0) {
        asked[1] = one != DENIED && one != UNSURE;
        if (!asked[1] || other == DENIED || other == UNSURE) return DENIED;
        return one == PERMITTED || other == PERMITTED ? PERMITTED : SILENT;
    }
    if (word == 1) {
        asked[1] = one != PERMITTED;
        if (!asked[1] || other == PERMITTED) return PERMITTED;
        if (one == DENIED || other == DENIED) return DENIED;
        return one == UNSURE || other == UNSURE ? UNSURE : SILENT;
    }
    if (word == 2) {
        asked[1] = one == SILENT;
        return asked[1] ? other : one;
    }
    asked[0] = side[0].matches && !side[1].matches;
    asked[1] = side[1].matches && !side[0].matches;
    if (side[0].matches && side[1].matches) return UNSURE;
    return asked[0] ? one : asked[1] ? other : SILENT;
}

static void expect(int word, const struct side side[2], struct outcome *outcome) {
    int asked[2];
    outcome->decision = combine(word, side, asked);
    outcome->length = 0;
    for (int i = 0; i < 2; i++) {
        if (!asked[i] || side[i].outcome.decision != outcome->decision) continue;
        memcpy(outcome->obligations + outcome->length, side[i].outcome.obligations, side[i].outcome.length);
        outcome->length += side[i].outcome.length;
    }
}

/* Every request of the joined text, in its order: x, y, z. */
static void decides(int word, struct side side[2], const uint8_t *text, size_t length) {
    static const char *const sets_of[] = {"3", "4", "3,4"};
    static struct outcome wanted, got;
    long number, alike = 0;
    declare_all((const char *)text);
    for (number = 0; outcome_of(text, length, number, &got); number++) {
        char x = (char)('1' + number / 6), z = (char)('1' + number % 2);
        ask_side(&side[0], x, sets_of[number / 2 % 3], z);
        ask_side(&side[1], x, sets_of[number / 2 % 3], z);
        expect(word, side, &wanted);
        alike += same_outcome(&wanted, &got);
    }
    check(number == 12 && alike == 12, given[word], __LINE__);
}

/* All pairs of trees, under each word; trimmed, they decide alike, and the trimmed text is accepted beside the joined. */
static void family(void) {
    static struct side side[2];
    static uint8_t text[2 * MOST], trimmed[2 * MOST];
    for (int one = 0; one < TREES; one++) {
        for (int other = 0; other < TREES; other++) {
            make_side(&side[0], "A\tx\t1\t2\nM\ty\t3\t4\n", 'f', 'x', &trees[one]);
            make_side(&side[1], "A\tz\t1\t2\nM\tY\t3\t4\n", 's', 'z', &trees[other]);
            for (int word = 0; word < 4; word++) {
                jogimaduve_answer got = jogimaduve_join((const uint8_t *)side[0].file, side[0].size, (const uint8_t *)side[1].file, side[1].size, (const uint8_t *)given[word], strlen(given[word]), text, sizeof text);
                check(got.number == 0 && got.second < sizeof text, given[word], __LINE__);
                decides(word, side, text, got.second);
                jogimaduve_answer left = jogimaduve_trim(text, got.second, trimmed, sizeof trimmed);
                check(left.number == 0, "trimmed", __LINE__);
                decides(word, side, trimmed, left.second);
                answers(jogimaduve_accept(text, got.second, trimmed, left.second), 0, 0, "the trimmed text", __LINE__);
            }
        }
    }
}

#define MAKER "A\trole\ttech\tguest\nA\tdoor\tshut\topen\nP\t0\tmaker\tfirst-applicable\t*\t*\nO\tlog\tdeny\nR\t1\tdoor-stop\tdeny\t*\topen\n"
#define LAB "M\tbadge\tday\tnight\nA\tRole\ttech\tguest\nP\t0\tlab\tpermit-overrides\t*\t*\nO\tslow\tpermit\nR\t1\tstaff\tpermit\t*\ttech\nR\t1\tno-nights\tdeny\tnight\tguest\n"
#define LINES "A\trole\ttech\tguest\nA\tdoor\tshut\topen\nM\tbadge\tday\tnight\n"
#define TREE "P\t1\tmaker\tfirst-applicable\t*\t*\t*\nO\tlog\tdeny\nR\t2\tdoor-stop\tdeny\t*\topen\t*\n" \
    "P\t1\tlab\tpermit-overrides\t*\t*\t*\nO\tslow\tpermit\nR\t2\tstaff\tpermit\ttech\t*\t*\nR\t2\tno-nights\tdeny\tguest\t*\tnight\n"
#define JOINED LINES "S\t0\tjoined\tdeny-overrides\t*\t*\t*\n" TREE

static void asks(const char *request, uint32_t decision, const char *obligations) {
    uint8_t text[JOGIMADUVE_LONGEST_OBLIGATIONS];
    jogimaduve_decision got = jogimaduve_decide(TEXT(JOINED), (const uint8_t *)request, strlen(request), text, sizeof text);
    check(got.number == 0 && got.second == decision && got.length == strlen(obligations) && memcmp(text, obligations, got.length) == 0, request, __LINE__);
}

/* Every operation takes a joined text as any file. */
static void other_operations(void) {
    JOINS(MAKER, LAB, DENY, JOINED);
    JOINS(MAKER, LAB, PERMIT, LINES "S\t0\tjoined\tpermit-overrides\t*\t*\t*\n" TREE);
    asks("tech\tshut\tday", PERMITTED, "slow\n");
    asks("TECH\tShut\tday,night", PERMITTED, "slow\n");
    asks("tech\topen\tday", DENIED, "log\n");
    asks("guest\tshut\tday", SILENT, "");
    asks("guest\tshut\tday,night", DENIED, "");
    asks("guest\topen\tnight", DENIED, "log\n"); /* the maker's settles it */
    gives(jogimaduve_report, TEXT(JOINED), TEXT(
        "G\t0\t3\tpermit\tjoined,maker,lab,staff\nG\t3\t3\tdeny\tjoined,maker,door-stop,lab,staff\n"
        "G\t6\t1\tnot-applicable\tjoined,maker,lab\nG\t7\t2\tdeny\tjoined,maker,lab,no-nights\nG\t9\t1\tdeny\tjoined,maker,door-stop,lab\n"
        "G\t10\t2\tdeny\tjoined,maker,door-stop,lab,no-nights\nC\tjoined\tmaker\tlab\t3\nK\tdoor-stop\t3\nK\tstaff\t0\nK\tno-nights\t7\n"), "report", __LINE__);
    /* a rule of the lab's that the maker's makes needless, and only in the joined text */
    JOINS(MAKER, LAB "R\t1\tagain\tdeny\t*\tguest\n", FIRST, LINES "S\t0\tjoined\tfirst-applicable\t*\t*\t*\n" TREE "R\t2\tagain\tdeny\tguest\t*\t*\n");
    gives(jogimaduve_next_rule, TEXT(LINES "S\t0\tjoined\tfirst-applicable\t*\t*\t*\n" TREE "R\t2\tagain\tdeny\tguest\topen\t*\n"), TEXT("again"), "next rule", __LINE__);
    gives(jogimaduve_trim, TEXT(LINES "S\t0\tjoined\tfirst-applicable\t*\t*\t*\n" TREE "R\t2\tagain\tdeny\tguest\topen\t*\n"), TEXT(LINES "S\t0\tjoined\tfirst-applicable\t*\t*\t*\n" TREE), "trim", __LINE__);
    answers(jogimaduve_value_pairs(TEXT(JOINED), TEXT("badge"), buffer, ROOM), 0, 29, "value pairs", __LINE__);
    check(memcmp(buffer, "D\t8\tdeny\tnot-applicable\tdeny\n", 29) == 0, "value pairs", __LINE__);
    memcpy(buffer, JOINED, sizeof JOINED);
    check(jogimaduve_step(buffer, sizeof JOINED - 1).struck == 0, "a step", __LINE__);
}

/* A joined text is a file that can be joined again, but under another name. */
static void joined_again(void) {
    REFUSES(JOINED, MAKER, FIRST, 4, 5);
    REFUSES("A\tx\ta\nP\t0\tp\tdeny-overrides\t*\n", JOINED, FIRST, 4, 7);
}

int main(void) {
    family();
    other_operations();
    joined_again();
    return checks_done();
}
