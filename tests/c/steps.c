/* jogimaduve_step to the end: the rules in the order of the report, the text that jogimaduve_trim gives; the largest files;
 * two threads at once. */
#include <pthread.h>

#include "course.h"
#include "held.h"
#include "large.h"

#define TOP "P\t0\ttop\tfirst-applicable\t*\n"
#define CELL                                                                                                                \
    "A\trole\ttech\tguest\nA\tact\tjog\tteach\nP\t0\tcell\tfirst-applicable\t*\t*\nR\t1\tr1\tpermit\ttech\t*\n"             \
    "R\t1\tr2\tdeny\tguest\tteach\nR\t1\tr3\tdeny\t*\tteach\nR\t1\tr4\tpermit\ttech\tjog\n"
/* r2 does work while r1 is there */
#define AGAIN                                                                                                               \
    "A\tx\ta\tb\nS\t0\ttop\tfirst-applicable\t*\nP\t1\tp0\tdeny-overrides\tb\nR\t2\tr1\tpermit\t*\nR\t2\tr2\tdeny\tb\n"     \
    "P\t1\tp1\tfirst-applicable\t*\nR\t2\tr3\tdeny\t*\n"
/* r permits with the obligation that s has, too */
#define RIVALS                                                                                                              \
    "A\tx\ta\tb\nS\t0\ttop\tfirst-applicable\t*\nP\t1\tp\tfirst-applicable\t*\nO\tlog\tpermit\nR\t2\tr\tpermit\ta\n"        \
    "P\t1\tq\tfirst-applicable\t*\nO\tlog\tpermit\nO\tstop\tdeny\nR\t2\ts\tpermit\t*\nR\t2\tt\tdeny\t*\nR\t2\tu\tpermit\tb\n"

static struct held held;
static struct course course;

/* The rules that are struck are those that are shown and those of the report, in its order; the end is the trimmed text. */
static void to_the_end(const char *file, int strikes, int line) {
    uint8_t name[JOGIMADUVE_LONGEST_NAME];
    size_t size = strlen(file);
    check(follow((const uint8_t *)file, size, &course) && course.strikes == strikes, file, line);
    hold(&held, (const uint8_t *)file, size);
    for (int i = 0; i < course.strikes; i++) {
        jogimaduve_answer shown = jogimaduve_next_rule(text_of(&held), held.length, name, sizeof name);
        answers(shown, 0, (uint32_t)strlen(course.rule[i]), course.rule[i], line);
        check(memcmp(name, course.rule[i], shown.second) == 0, course.rule[i], line);
        steps(&held, 1, course.text[i + 1], course.length[i + 1], course.rule[i], line);
    }
    answers(jogimaduve_next_rule(text_of(&held), held.length, name, sizeof name), 0, 0, "none shown", line);
    steps(&held, 0, course.text[strikes], course.length[strikes], "none struck", line);
}

static void ends(void) {
    static char file[JOGIMADUVE_LONGEST_FILE + 1];
    to_the_end(CELL, 2, __LINE__);
    to_the_end(AGAIN, 2, __LINE__);
    to_the_end("A\tx\ta\tb\n" TOP, 0, __LINE__);
    to_the_end("A\tx\ta\n" TOP "R\t1\tr1\tdeny\t*\nR\t1\tr2\tpermit\t*\nR\t1\tr3\tpermit\t*\nR\t1\tr4\tdeny\t*\n", 3, __LINE__);
    to_the_end("M\tx\ta\tB\tc\n" TOP "R\t1\tr1\tpermit\ta,B\nR\t1\tR2\tpermit\ta\nR\t1\tr3\tpermit\tB,c\nR\t1\tR-4\tdeny\tB\n", 2, __LINE__);
    to_the_end(RIVALS, 3, __LINE__);
    many(file, 0);
    to_the_end(file, 31, __LINE__);
    many(file, 1);
    to_the_end(file, 1, __LINE__);
    check(longest(file) == JOGIMADUVE_LONGEST_FILE, "16,384 bytes", __LINE__);
    to_the_end(file, 55, __LINE__);
}

struct runner {
    struct course course;
    struct held held;
    int rounds, done, wrong;
};

/* To the end again and again; the answers and texts that are not those of one thread alone are counted. */
static void *run(void *given) {
    struct runner *runner = given;
    const struct course *wanted = &runner->course;
    for (int round = 0; round < runner->rounds; round++) {
        hold(&runner->held, wanted->text[0], wanted->length[0]);
        for (int i = 1; i <= wanted->strikes + 1; i++) {
            int left = i <= wanted->strikes ? i : wanted->strikes;
            jogimaduve_stepped got = jogimaduve_step(text_of(&runner->held), runner->held.length);
            int right = is_step(got, 0, (uint32_t)wanted->length[left], i == left) && memcmp(text_of(&runner->held), wanted->text[left], wanted->length[left]) == 0;
            runner->held.length = wanted->length[left];
            runner->wrong += !right;
            runner->done++;
        }
    }
    return NULL;
}

static void threads(void) {
    static struct runner runners[2] = {{.rounds = 500}, {.rounds = 50}}; /* a small file and a large one */
    static char file[JOGIMADUVE_LONGEST_FILE + 1];
    pthread_t thread[2];
    check(follow(TEXT(RIVALS), &runners[0].course), "two threads", __LINE__);
    check(follow((const uint8_t *)file, many(file, 0), &runners[1].course), "two threads", __LINE__);
    for (int i = 0; i < 2; i++) {
        if (pthread_create(&thread[i], NULL, run, &runners[i]) != 0) abort();
    }
    for (int i = 0; i < 2; i++) {
        pthread_join(thread[i], NULL);
        check(runners[i].done == runners[i].rounds * (runners[i].course.strikes + 1) && runners[i].wrong == 0, "two threads", __LINE__);
    }
    check(runners[0].course.strikes == 3 && runners[1].course.strikes == 31, "two threads", __LINE__);
}

int main(void) {
    ends();
    threads();
    return checks_done();
}
