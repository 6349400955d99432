/* What the cases are told with: each call says what the reference must answer. Spaces stand for tabs. */
#ifndef CASES_H
#define CASES_H

#include "reference.h"

#define SIXTEEN " a b c d e f g h i j k l m n o p\n"

/* expect.c */
extern int bad_cases; /* how many did not hold */
size_t bytes_of(const char *text, uint8_t *bytes); /* with tabs for its spaces and no zero behind it; gives its length */
/* In a buffer of any size: no obligations come with it. */
void decides(const char *what, const char *policy, const char *line, uint32_t number, uint32_t second);
/* Permit or deny, with these obligations in a buffer of their size and in a longer one; 11 in each that is too short. */
void obliges(const char *what, const char *policy, const char *line, enum decision decision, const char *text);
/* The text in a buffer of its size, and 11 in one that is a byte too short; none is too short for an empty text. */
void gives_text(const char *what, struct answer operation(const uint8_t *, size_t, uint8_t *, size_t),
                const char *policy, const char *text);
/* Nothing is put into a buffer of `room` bytes. */
void refuses_text(const char *what, struct answer operation(const uint8_t *, size_t, uint8_t *, size_t),
                  const char *policy, size_t room, uint32_t number, uint32_t second);
/* The list is a policy and a rule; `text` is all that is put into the buffer. */
void writes(const char *lines, const struct record list[2], uint32_t number, uint32_t second, const char *text);

/* cases_sets.c */
void cases_of_sets(void);

/* cases_pairs.c */
void cases_of_pairs(void);

/* cases_obligations.c */
void cases_of_obligations(void);

/* cases_places.c */
void cases_of_places(void);

/* cases_rules.c */
void cases_of_rules(void);

/* cases_step.c */
void cases_of_steps(void);

/* cases_accept.c */
void cases_of_proposals(void);

/* cases_join.c */
void cases_of_joining(void);

#endif
