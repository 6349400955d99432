/* jogimaduve_accept on files that are made: what trimming writes, each text on the way there, rules struck in any order, rule
 * lines left out at random, lines changed; and every choice of the lines of one file. What it must answer is worked out by
 * other operations. */
#include "course.h"
#include "judge.h"
#include "make.h"
#include "sound.h"

enum { FILES = 80, PROPOSALS = 8, MOST_LINES = 80, MOST_TEXT = MOST_MADE + 100 };

/* What came up. Each has to, so that none is tried on nothing. */
enum { ACCEPTED, NOT_TRIMMED, REFUSED, OTHER_LINE, LEFT_OVER, OTHER_OUTCOME, NEEDLESS, NOT_NEXT, THINGS };
static const char *const things[THINGS] = {
    "accepted", "accepted, not what trimming leaves", "the proposal refused", "another line", "a line left over",
    "another outcome", "a rule that does no work", "a rule that is not the next to strike",
};
static long seen[THINGS];

/* The line of the rule that is shown as the next to strike. */
static uint32_t line_of_next(const uint8_t *text, size_t length) {
    char name[JOGIMADUVE_LONGEST_NAME];
    uint32_t line = 1;
    size_t shown = jogimaduve_next_rule(text, length, (uint8_t *)name, sizeof name).second;
    for (size_t at = 0; at < length; at = line_end(text, at), line++) {
        const char *named = (const char *)text + at + strlen("R\t1\t");
        if (text[at] == 'R' && strncmp(named, name, shown) == 0 && named[shown] == '\t') return line;
    }
    return 0;
}

/* Answers as it must; what it answers. */
static jogimaduve_answer judge(const uint8_t *original, size_t size, const uint8_t *proposal, size_t length, const char *what, int line) {
    jogimaduve_answer owed = soundness(original, size, proposal, length);
    judges_alone(original, size, proposal, length, owed, what, line);
    if (owed.number == 0) seen[ACCEPTED]++;
    if (owed.number == 16) seen[owed.second > 0 ? OTHER_LINE : LEFT_OVER]++;
    if (owed.number == 17) seen[OTHER_OUTCOME]++;
    if (owed.number == 18) seen[line_of_next(proposal, length) == owed.second ? NEEDLESS : NOT_NEXT]++;
    if (owed.number > 0 && owed.number < 16) seen[REFUSED]++;
    return owed;
}

/* Each text on the way of trimming, as jogimaduve_step and, for the rule that is shown, jogimaduve_strike leave it: accepted
 * exactly if it is what jogimaduve_trim writes, which is the last. */
static void on_the_way(const struct course *course) {
    static uint8_t held[MOST_MADE], struck[2][MOST_MADE];
    size_t size = course->length[0], length = size;
    memcpy(held, course->text[0], size);
    memcpy(struck[0], course->text[0], size);
    for (int i = 0; i <= course->strikes; i++) {
        const uint8_t *rule = (const uint8_t *)course->rule[i];
        jogimaduve_answer got = judge(course->text[0], size, held, length, made.text, __LINE__);
        check(got.number == (i == course->strikes ? 0 : 18), "on the way", __LINE__);
        answers(jogimaduve_accept(course->text[0], size, struck[i % 2], length), got.number, got.second, "rule by rule", __LINE__);
        if (i == course->strikes) break;
        jogimaduve_answer left = jogimaduve_strike(struck[i % 2], length, rule, strlen(course->rule[i]), struck[1 - i % 2], sizeof struck[0]);
        length = jogimaduve_step(held, length).second;
        check(left.number == 0 && left.second == length, "rule by rule", __LINE__);
    }
}

/* Strikes rules that do no work, one at a time and any of them, until there is none: accepted then, and not before. */
static void any_order(const struct course *course) {
    static uint8_t texts[2][MOST_MADE];
    size_t size = course->length[0], length = size;
    int now = 0;
    memcpy(texts[0], course->text[0], size);
    for (uint32_t tries = 0; find_needless(texts[now], length).number != 0; tries++) {
        char name[JOGIMADUVE_LONGEST_NAME + 1];
        unsigned wanted = below((unsigned)made.rules), rule = 0;
        check(jogimaduve_accept(course->text[0], size, texts[now], length).number == 18, "not yet", __LINE__);
        for (size_t at = 0; at < size; at = line_end(course->text[0], at)) {
            if (course->text[0][at] == 'R' && rule++ == wanted) sscanf((const char *)course->text[0] + at, "R\t%*d\t%16s", name);
        }
        jogimaduve_answer left = jogimaduve_strike(texts[now], length, (const uint8_t *)name, strlen(name), texts[1 - now], sizeof texts[0]);
        if (left.number != 0) continue;
        now = 1 - now;
        length = left.second;
    }
    check(judge(course->text[0], size, texts[now], length, made.text, __LINE__).number == 0, "rules struck in any order", __LINE__);
    seen[NOT_TRIMMED] += length != course->length[course->strikes] || memcmp(texts[now], course->text[course->strikes], length) != 0;
}

/* The lines of a text, of which a proposal is put together. */
struct lines { int count; const uint8_t *at[MOST_LINES]; size_t length[MOST_LINES]; };

static void add_line(struct lines *lines, const uint8_t *at) {
    lines->at[lines->count] = at;
    lines->length[lines->count++] = line_end(at, 0);
}

static size_t join(const struct lines *lines, uint8_t *text) {
    size_t length = 0;
    for (int i = 0; i < lines->count; length += lines->length[i++]) memcpy(text + length, lines->at[i], lines->length[i]);
    return length;
}

/* One line left out, twice, before the one above it, a new one, or a letter of one in other case. */
static void damage(struct lines *lines) {
    static uint8_t other[100];
    unsigned what = below(5), line = below((unsigned)lines->count);
    const uint8_t *at = lines->at[line];
    struct lines before = *lines;
    lines->count = 0;
    for (int i = 0; i < before.count; i++) {
        int here = i == (int)line;
        if (here && what == 0) continue;
        if (here && what == 2 && i > 0) {
            lines->count--;
            add_line(lines, at);
            at = before.at[i - 1];
        }
        if (here && what == 3) {
            sprintf((char *)other, "%.3snew%s", at, strchr((const char *)at + 4, '\t'));
            add_line(lines, other);
        }
        if (here && what == 4) {
            size_t length = line_end(at, 0), letter = below((unsigned)length);
            memcpy(other, at, length);
            if ((other[letter] | 32) >= 'a' && (other[letter] | 32) <= 'z') other[letter] ^= 32;
            at = other;
        }
        add_line(lines, here ? at : before.at[i]);
        if (here && what == 1) add_line(lines, at);
    }
}

/* Rule lines left out at random, half of the proposals changed besides. */
static void at_random(const uint8_t *original, size_t size) {
    static uint8_t proposal[MOST_TEXT];
    struct lines lines = {.count = 0};
    unsigned some = 1 + below(6), changed = below(2);
    for (size_t at = 0; at < size; at = line_end(original, at)) {
        if (original[at] != 'R' || below(some + 1) > 0) add_line(&lines, original + at);
    }
    if (changed) damage(&lines);
    judge(original, size, proposal, join(&lines, proposal), made.text, __LINE__);
}

static void files(void) {
    static struct course course;
    for (int file = 0; file < FILES; file++) {
        make_file();
        check(follow((const uint8_t *)made.text, made.size, &course), made.text, __LINE__);
        on_the_way(&course);
        any_order(&course);
        for (int i = 0; i < PROPOSALS; i++) at_random(course.text[0], course.length[0]);
    }
}

/* Every choice of these lines, rule lines or not; also beside each one that lacks a single line. */
static void every_choice(void) {
    static const uint8_t file[] =
        "A\tx\ta\tb\nS\t0\ttop\tdeny-overrides\t*\nO\tlog\tpermit\nP\t1\tp\tfirst-applicable\t*\nO\tlog\tpermit\nR\t2\tr1\tpermit\ta\n"
        "R\t2\tr2\tpermit\t*\nP\t1\tq\tfirst-applicable\t*\nR\t2\tr3\tpermit\tb\nS\t1\tend\tdeny-overrides\t*\n";
    uint8_t original[sizeof file], proposal[sizeof file];
    struct lines whole = {.count = 0};
    for (size_t at = 0; at < sizeof file - 1; at = line_end(file, at)) add_line(&whole, file + at);
    for (int lacks = 0; lacks <= whole.count; lacks++) {
        struct lines lines = {.count = 0};
        for (int i = 0; i < whole.count; i++) {
            if (i != lacks) add_line(&lines, whole.at[i]);
        }
        size_t size = join(&lines, original);
        unsigned step = lacks == whole.count ? 1 : 23; /* some of them, where a line is lacking */
        for (unsigned choice = 0; choice < 1u << whole.count; choice += step) {
            lines.count = 0;
            for (int i = 0; i < whole.count; i++) {
                if (choice >> i & 1) add_line(&lines, whole.at[i]);
            }
            judge(original, size, proposal, join(&lines, proposal), "a choice of lines", __LINE__);
        }
    }
}

int main(void) {
    files();
    every_choice();
    for (int i = 0; i < THINGS; i++) check(seen[i] >= 10, things[i], __LINE__);
    return checks_done();
}
