/* What makes the lines of the measured files. */
#ifndef FILE_LINES_H
#define FILE_LINES_H

#include "files.h"

struct shape { /* the attributes, and what makes names */
    unsigned attributes, values[6];
    char letter[6];
    char value[6][16][17];
    int long_names;
};

static const char *const algorithms[4] = {
    "deny-overrides", "permit-overrides", "first-applicable", "only-one-applicable",
};

void put(struct policy_file *file, const char *bytes);
void attribute(struct policy_file *file, struct shape *shape, char letter, const char *name,
               const char *const *values, unsigned count);

/* An attribute behind those that the shape has; its names are of 16 bytes or short ones, as the shape says, and are made by
 * the number, so that two files can have it in other places. */
void numbered_attribute(struct policy_file *file, struct shape *shape, char letter, unsigned number, unsigned values);

/* Attributes of one letter and equally many values, and none before. */
void even_space(struct policy_file *file, struct shape *shape, char letter, unsigned attributes, unsigned values,
                int long_names);

/* A tree line; `numbered` makes its name. A mask of 0 or of all values is written `*`. */
void element(struct policy_file *file, const struct shape *shape, char kind, unsigned depth, const char *name,
             const char *word, const unsigned targets[6]);
void numbered(struct policy_file *file, const struct shape *shape, char kind, unsigned depth, unsigned number,
              const char *word, const unsigned targets[6]);

unsigned random_below(uint64_t *state, unsigned limit);
unsigned random_mask(uint64_t *state, unsigned values, unsigned bits);

/* laboratories.c: the small file and the common one with this algorithm at the top, each with one role a request (A) or
 * badges of several (M), and the common one with capitals in all names but those of requests. */
void small_laboratory(struct policy_file *file, struct shape *shape, char roles);
void common_laboratory(struct policy_file *file, struct shape *shape, char roles, const char *algorithm);
void spelled_laboratory(struct policy_file *file, struct shape *shape);

/* laboratories.c: what the arm's maker ships, with one of the laboratory's attributes and one of its own. */
void maker_policy(struct policy_file *file, struct shape *shape);

/* obliged_files.c: obligations for a laboratory, or for every set and policy of a file; and files in which rules are needed
 * for obligations alone, at late requests, or for nothing, where the same name comes from another element: two policies in
 * each of many sets, or narrow rules in one policy, which may stand behind needless ones. */
void oblige_laboratory(struct policy_file *file);
void oblige_all(struct policy_file *file);
void obliged_late(struct policy_file *file, struct shape *shape);
void obliged_alike(struct policy_file *file, struct shape *shape);
void obliged_narrow(struct policy_file *file, struct shape *shape);
void obliged_behind(struct policy_file *file, struct shape *shape);

/* requests.c */
void make_requests(struct policy_file *file, const struct shape *shape);

#endif
