/* What compare.c has for each operation that fills a lent buffer. */
#ifndef COMPARE_H
#define COMPARE_H

#include "generate.h"
#include "jogimaduve.h"

enum { MANY = 10000, OFTEN = 100 }; /* of so many inputs, each kind comes up so often */

typedef struct answer reference_text(const uint8_t *file, size_t length, uint8_t *out, size_t room);
typedef jogimaduve_answer library_text(const uint8_t *file, size_t length, uint8_t *out, size_t room);

extern unsigned long differences;
void difference(const char *what, struct answer wanted, jogimaduve_answer got, const struct bytes *file); /* counts it too */
void show_bytes(const char *what, const uint8_t *bytes, size_t length);
uint8_t *exactly(const uint8_t *bytes, size_t length); /* to be freed */
int has_obligation(const struct policy *policy);

/* In a buffer of the first room and, where that gives a text or 11, in up to so many others around what is needed.
 * Gives the first answer. */
struct answer compare_rooms(const char *what, const struct bytes *file, size_t most_rooms, size_t first_room,
                            reference_text *reference, library_text *library);

/* Prints how often each came up, and gives whether all did often. */
struct seen { const char *what; unsigned long times; };
int seen_often(const char *of_what, const struct seen *seen, size_t count);

/* compare_decide.c: a request line of the policy, or a bad one, in buffers of every fit. Gives the answer in the first of
 * them, for a decision with the length of its obligations. */
struct answer compare_decide(const struct bytes *file, const struct policy *policy, int accepted);
/* The same, but that the library has what steps have left of an accepted file. */
struct answer compare_decide_left(const struct bytes *file, const struct policy *policy, struct slice left);
void compare_request(const struct bytes *file, const struct policy *policy, int number); /* the one of this number */
int requests_seen(void); /* whether each kind came up often; prints how often */

/* compare_obligations.c: small files in which obligations count, every request of each */
void compare_obliged_files(void);
int first_other_decision(struct policy *policy, int rule); /* without the rule, obligations aside; the space if there is none */
int obligations_seen(void); /* whether each kind came up often; prints how often */

/* compare_pairs.c */
void compare_pairs(const struct bytes *file, const struct policy *policy, int accepted);
void compare_small_files(void); /* whose pairs get decisions that they seldom get in larger ones */
int pairs_seen(void); /* whether each kind came up often; prints how often */

/* compare_rules.c: next_rule and strike */
void compare_rules(const struct bytes *file, struct policy *policy, int accepted);
void compare_strikes(const struct bytes *file, struct policy *policy); /* the same, and both to the end; of a small policy */
int rules_seen(void); /* whether each kind came up often; prints how often */

/* compare_step.c */
void compare_step(const struct bytes *file, const struct policy *policy, int accepted); /* one step */
void compare_held(const struct bytes *file); /* a list of steps and requests from an accepted file on */
int steps_seen(void); /* whether each kind came up often; prints how often */

/* compare_accept.c: many proposals for a file */
void compare_accept(const struct bytes *file, const struct policy *policy, int accepted);
void compare_sparse_file(void); /* whose requests differ late */
int proposals_seen(void); /* whether each kind came up often; prints how often */

/* compare_join.c: the file with a mate and with others, and pairs that are made for joining */
void compare_join(const struct bytes *file, const struct policy *policy, int accepted);
void compare_made_joining(void);

/* count_join.c */
void count_joining(const struct joining *joining, struct answer answer);
void count_joined(const struct policy file[2], const struct policy *joined, size_t length); /* where there is a text */
int joining_seen(void); /* whether each kind came up often; prints how often */

/* compare_joined.c: the first request of a joined text that the library decides otherwise than the two files' decisions say
 * or with other obligations, -1 if there is none */
int compare_joined(const struct bytes *text, const struct policy *joined, const struct policy *first,
                   const struct policy *second);
int joined_seen(void); /* whether each kind came up often; prints how often */

#endif
