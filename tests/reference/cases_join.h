/* What the cases of joining are told with. Spaces stand for tabs, also in the word. */
#ifndef CASES_JOIN_H
#define CASES_JOIN_H

#include "cases.h"

#define DO "deny-overrides"
#define PO "permit-overrides"
#define FA "first-applicable"
#define OO "only-one-applicable"

enum { JOINED_BYTES = FILE_BYTES + 100 };

struct answer join_in(const char *first, const char *second, const char *word, uint8_t *out, size_t room);
/* In a buffer of the text's size and in a longer one; 11 in others. */
void joins(const char *first, const char *second, const char *word, const char *text);
/* In a buffer of any size. */
void refuses_join(const char *first, const char *second, const char *word, uint32_t number, uint32_t line);

/* cases_join_large.c */
void cases_of_large_joining(void);

#endif
