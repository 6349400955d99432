/* A policy that is held while it is trimmed: whatever steps, decisions and refused requests there are, each decision is that
 * of the file first read, with its obligations, and the text is that file less the first rules that trimming strikes, one for
 * each step. Two policies are held at once; then one, on copies of which a second thread decides meanwhile. */
#include <pthread.h>

#include "course.h"
#include "held.h"
#include "make.h"

enum { LISTS = 300, CALLS = 40, ROOM = 700, FILLED = 0xa5, REQUEST = 100 };

/* A policy, how trimming goes on in it, and how far it is. */
struct side {
    struct made made;
    struct course course;
    struct held held;
    int struck;
};

/* What came up in the lists. Each has to, so that none is tried on nothing. */
enum {
    STRUCK, LAST_LINE, OTHER_LINE, NONE_LEFT, NO_RULE,
    PERMIT, DENY, NOT_APPLICABLE, INDETERMINATE, OBLIGATIONS, SHORT, BAD_FIELD, FIELD_COUNT,
    THINGS
};
static const char *const things[THINGS] = {
    "struck", "the last line", "another line", "none left", "nothing to strike",
    "permit", "deny", "not-applicable", "indeterminate", "obligations", "a short buffer", "a bad field", "a wrong field count",
};
static long seen[THINGS];

static void step(struct side *side) {
    const struct course *course = &side->course;
    int more = side->struck < course->strikes;
    if (more) seen[course->last[side->struck] ? LAST_LINE : OTHER_LINE]++;
    seen[more ? STRUCK : course->strikes > 0 ? NONE_LEFT : NO_RULE]++;
    side->struck += more;
    steps(&side->held, (uint32_t)more, course->text[side->struck], course->length[side->struck], side->made.text, __LINE__);
}

/* On the text left and on the file first read: the same answer, the same bytes in the buffer and behind what is lent of it. */
static void decide(struct side *side, const char *request, size_t length, size_t room) {
    static struct held before;
    uint8_t now[ROOM], first[ROOM];
    memset(now, FILLED, sizeof now);
    memset(first, FILLED, sizeof first);
    before = side->held;
    jogimaduve_decision got = jogimaduve_decide(text_of(&side->held), side->held.length, (const uint8_t *)request, length, now, room);
    jogimaduve_decision wanted = jogimaduve_decide(side->course.text[0], side->course.length[0], (const uint8_t *)request, length, first, room);
    check(got.number == wanted.number && got.second == wanted.second && got.length == wanted.length, side->made.text, __LINE__);
    check(memcmp(now, first, sizeof now) == 0, side->made.text, __LINE__);
    check(memcmp(side->held.memory, before.memory, sizeof before.memory) == 0, side->made.text, __LINE__);
    if (side->struck == 0) return; /* the file first read itself */
    if (wanted.number == 0) seen[PERMIT + wanted.second]++;
    if (wanted.length > 0) seen[OBLIGATIONS]++;
    if (wanted.number == 11) seen[SHORT]++;
    if (wanted.number == 10) seen[wanted.second > 0 ? BAD_FIELD : FIELD_COUNT]++;
}

static void call(struct side *side) {
    char request[REQUEST];
    unsigned what = below(8);
    made = side->made;
    if (what < 3) step(side);
    else decide(side, request, make_request(request, what < 7), what == 6 ? below(30) : ROOM);
}

static void begin(struct side *side) {
    make_file();
    side->made = made;
    side->struck = 0;
    check(follow((const uint8_t *)made.text, made.size, &side->course), made.text, __LINE__);
    hold(&side->held, (const uint8_t *)made.text, made.size);
}

static void lists(void) {
    static struct side sides[2];
    for (int list = 0; list < LISTS; list++) {
        begin(&sides[0]);
        begin(&sides[1]);
        for (unsigned calls = below(CALLS); calls > 0; calls--) call(&sides[below(2)]);
    }
    for (int i = 0; i < THINGS; i++) check(seen[i] >= 20, things[i], __LINE__);
}

enum { FILES = 40, REQUESTS = 12 };

/* The text left last, between the threads: one puts it there, the other takes a copy. */
static struct {
    pthread_mutex_t lock;
    uint8_t text[MOST_MADE];
    size_t length;
    int struck, done;
} between = {.lock = PTHREAD_MUTEX_INITIALIZER};

static struct question {
    char request[REQUEST];
    size_t length;
    jogimaduve_decision wanted;
    uint8_t obligations[ROOM];
} questions[REQUESTS];

static long wrong, decided, decided_trimmed; /* by the second thread */

static void put_between(struct side *side, int done) {
    pthread_mutex_lock(&between.lock);
    memcpy(between.text, text_of(&side->held), side->held.length);
    between.length = side->held.length;
    between.struck = side->struck;
    between.done = done;
    pthread_mutex_unlock(&between.lock);
}

/* As a controller does: a copy, decisions on it, the next copy. */
static void *go_on_deciding(void *unused) {
    static uint8_t text[MOST_MADE];
    for (int done = 0; !done;) {
        pthread_mutex_lock(&between.lock);
        size_t length = between.length;
        int struck = between.struck;
        memcpy(text, between.text, length);
        done = between.done;
        pthread_mutex_unlock(&between.lock);
        for (int i = 0; i < REQUESTS; i++) {
            const struct question *asked = &questions[i];
            uint8_t buffer[ROOM];
            memset(buffer, FILLED, sizeof buffer);
            jogimaduve_decision got = jogimaduve_decide(text, length, (const uint8_t *)asked->request, asked->length, buffer, sizeof buffer);
            int same = got.number == asked->wanted.number && got.second == asked->wanted.second && got.length == asked->wanted.length;
            wrong += !same || memcmp(buffer, asked->obligations, sizeof buffer) != 0;
            decided++;
            decided_trimmed += struck > 0;
        }
    }
    return unused;
}

/* Each file is trimmed to its end while the second thread decides, at the end of which it has the trimmed text. */
static void meanwhile(void) {
    static struct side side;
    pthread_t thread;
    for (int file = 0; file < FILES; file++) {
        begin(&side);
        for (int i = 0; i < REQUESTS; i++) {
            struct question *asked = &questions[i];
            asked->length = make_request(asked->request, i > 0);
            memset(asked->obligations, FILLED, ROOM);
            asked->wanted = jogimaduve_decide(side.course.text[0], side.course.length[0], (const uint8_t *)asked->request, asked->length, asked->obligations, ROOM);
        }
        put_between(&side, 0);
        if (pthread_create(&thread, NULL, go_on_deciding, NULL) != 0) abort();
        while (side.struck < side.course.strikes) {
            step(&side);
            put_between(&side, 0);
        }
        step(&side);
        put_between(&side, 1);
        pthread_join(thread, NULL);
    }
    check(wrong == 0, "decisions of a second thread", __LINE__);
    check(decided >= FILES * REQUESTS && decided_trimmed >= FILES / 4 * REQUESTS, "decisions of a second thread", __LINE__);
}

int main(void) {
    lists();
    meanwhile();
    return checks_done();
}
