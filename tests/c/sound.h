/* Whether a proposal is sound, worked out by other operations and by comparing lines: the answer that jogimaduve_accept owes. */
#ifndef SOUND_H
#define SOUND_H

#include "outcome.h"

static size_t line_end(const uint8_t *text, size_t at) {
    while (text[at++] != '\n') {}
    return at;
}

/* Reading alone: an empty request is bad in every file that is good. */
static jogimaduve_answer reading(const uint8_t *file, size_t size) {
    uint8_t room;
    jogimaduve_decision got = jogimaduve_decide(file, size, file, 0, &room, 0);
    return got.number == 10 ? (jogimaduve_answer){0, 0} : (jogimaduve_answer){got.number, got.second};
}

/* Each line of the proposal is the original's next, but for rule lines, and only rule lines are left over. */
static jogimaduve_answer compare_lines(const uint8_t *original, size_t size, const uint8_t *proposal, size_t length) {
    size_t at = 0;
    uint32_t line = 0;
    for (size_t from = 0, end; from < length; from = end) {
        end = line_end(proposal, from);
        line++;
        while (at == size || line_end(original, at) - at != end - from || memcmp(original + at, proposal + from, end - from) != 0) {
            if (at == size || original[at] != 'R') return (jogimaduve_answer){16, line};
            at = line_end(original, at);
        }
        at += end - from;
    }
    while (at < size && original[at] == 'R') at = line_end(original, at);
    return (jogimaduve_answer){at < size ? 16 : 0, 0};
}

/* Every request, in the order of their numbers. */
static jogimaduve_answer compare_outcomes(const uint8_t *original, size_t size, const uint8_t *proposal, size_t length) {
    static struct outcome one, other;
    declare_all((const char *)original);
    for (long number = 0; outcome_of(original, size, number, &one) && outcome_of(proposal, length, number, &other); number++) {
        if (!same_outcome(&one, &other)) return (jogimaduve_answer){17, (uint32_t)number};
    }
    return (jogimaduve_answer){0, 0};
}

/* Each rule by its name, from the top: whether jogimaduve_strike takes it. */
static jogimaduve_answer find_needless(const uint8_t *proposal, size_t length) {
    uint8_t room;
    uint32_t line = 1;
    for (size_t at = 0; at < length; at = line_end(proposal, at), line++) {
        const uint8_t *name = proposal + at + strlen("R\t1\t");
        if (proposal[at] != 'R') continue;
        jogimaduve_answer struck = jogimaduve_strike(proposal, length, name, strcspn((const char *)name, "\t"), &room, 0);
        if (struck.number != 11 && struck.number != 15) check(0, "struck in no room", __LINE__);
        if (struck.number == 11) return (jogimaduve_answer){18, line};
    }
    return (jogimaduve_answer){0, 0};
}

static jogimaduve_answer soundness(const uint8_t *original, size_t size, const uint8_t *proposal, size_t length) {
    jogimaduve_answer owed = reading(original, size);
    if (owed.number == 0) owed = reading(proposal, length);
    if (owed.number == 0) owed = compare_lines(original, size, proposal, length);
    if (owed.number == 0) owed = compare_outcomes(original, size, proposal, length);
    if (owed.number == 0) owed = find_needless(proposal, length);
    return owed;
}

#endif
