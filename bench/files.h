/* Policy files and request lines to measure with. All are made here and are the same in every run. */
#ifndef FILES_H
#define FILES_H

#include <stddef.h>
#include <stdint.h>

/* The longest request has all values of an M of twelve. */
enum { REQUESTS = 8, REQUEST_BYTES = (12 + 5) * 17, MOST_FILE_BYTES = 16384, MOST_NAME_BYTES = 16 };

/* For a file: its trimmed text, which is accepted; the file itself, if a rule is needless; the trimmed text without its last
 * rule, if there is one, which decides otherwise; the trimmed text with another last line. */
enum { TRIMMED, WHOLE, LESS, CHANGED, PROPOSALS };

struct proposal {
    size_t length; /* 0 if there is none */
    uint8_t bytes[MOST_FILE_BYTES];
};

struct policy_file {
    const char *name;
    size_t length;
    uint8_t bytes[MOST_FILE_BYTES];
    unsigned requests; /* 0 for a file that is refused */
    size_t request_length[REQUESTS];
    uint8_t request[REQUESTS][REQUEST_BYTES];
    size_t sets_length; /* 0 for a file without an M */
    uint8_t sets[MOST_NAME_BYTES]; /* name of the first M */
    size_t rule_length; /* 0 for a file without a rule */
    uint8_t rule[MOST_NAME_BYTES]; /* name of the last rule, or of the one that is shown */
    int shown;
    struct proposal proposal[PROPOSALS]; /* made by make_proposals alone */
    const struct policy_file *second; /* to be joined with, for this answer; made by make_join alone */
    const char *word;
    uint32_t join_answer;
};

/* 0 if there are not so many. */
int make_file(struct policy_file *file, unsigned number);

/* proposals.c: from a trimmed text. */
void make_proposals(struct policy_file *file, const uint8_t *trimmed, size_t length);

/* joins.c: a file and its second one. 0 if there are not so many. */
int make_join(struct policy_file *file, unsigned number);

#endif
