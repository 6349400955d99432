/* The course of trimming: what it leaves of a file rule by rule, by the file's report and by leaving out lines. */
#ifndef COURSE_H
#define COURSE_H

#include "check.h"

enum { MOST_RULES = 63 };

/* The rules that trimming strikes, in order, and the text left when so many are struck: 0 is the file itself. */
struct course {
    int strikes;
    int last[MOST_RULES]; /* whether the struck line was the last */
    char rule[MOST_RULES][JOGIMADUVE_LONGEST_NAME + 1];
    size_t length[MOST_RULES + 1];
    uint8_t text[MOST_RULES + 1][JOGIMADUVE_LONGEST_FILE];
};

/* Leaves out the line of a rule; `last` becomes whether no line is behind it. */
static size_t without(const uint8_t *text, size_t size, const char *rule, uint8_t *left, int *last) {
    size_t kept = 0, name = strlen(rule);
    for (size_t at = 0, end; at < size; at = end) {
        for (end = at; text[end++] != '\n';) {}
        const char *named = (const char *)text + at + strlen("R\t1\t");
        if (text[at] == 'R' && strncmp(named, rule, name) == 0 && named[name] == '\t') {
            *last = end == size;
        } else {
            memcpy(left + kept, text + at, end - at);
            kept += end - at;
        }
    }
    return kept;
}

/* By the X lines of the file's report; the text at the end must be the trimmed one. */
static int follow(const uint8_t *file, size_t size, struct course *course) {
    static char report[4 * JOGIMADUVE_REPORT_BUFFER];
    static uint8_t trimmed[JOGIMADUVE_LONGEST_FILE];
    jogimaduve_answer told = jogimaduve_report(file, size, (uint8_t *)report, sizeof report - 1);
    if (told.number != 0) return 0;
    report[told.second] = '\0';
    course->strikes = 0;
    course->length[0] = size;
    memcpy(course->text[0], file, size);
    for (const char *line = strstr(report, "\nX\t"); line != NULL; line = strstr(line + 1, "\nX\t")) {
        int i = course->strikes++;
        sscanf(line, "\nX\t%16s", course->rule[i]);
        course->length[i + 1] = without(course->text[i], course->length[i], course->rule[i], course->text[i + 1], &course->last[i]);
    }
    jogimaduve_answer done = jogimaduve_trim(file, size, trimmed, sizeof trimmed);
    return done.number == 0 && done.second == course->length[course->strikes]
        && memcmp(trimmed, course->text[course->strikes], done.second) == 0;
}

#endif
