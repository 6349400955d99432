/* Generated inputs: policy files, valid or damaged, and request lines for compare.c, lists of elements for make_lists.c.
 * All come from one seed. */
#ifndef GENERATE_H
#define GENERATE_H

#include "reference.h"

struct bytes { size_t length; uint8_t bytes[60000]; };

/* text.c */
void start_random(uint64_t seed);
uint32_t below(uint32_t limit); /* a random number under the limit; 0 if the limit is 0 */
int one_in(uint32_t many);

/* Replaces `length` bytes at a place; what would not fit is left as it is. */
void replace(struct bytes *text, size_t at, size_t length, const void *bytes, size_t count);
void put(struct bytes *text, const char *string); /* at the end */

#define TREE_LINE "SPR"
#define ATTRIBUTE_LINE "AM"
#define ANY_LINE ""

/* A random line that starts with one of these letters, if there is one: where it starts and how long it is, newline
 * left out. */
size_t pick_line(const struct bytes *file, const char *letters, size_t *length);

/* Field `number` of a line: where it starts, and its length. The last one if there are not so many. */
size_t field_of(const struct bytes *text, size_t line, size_t line_length, uint32_t number, size_t *length);
size_t pick_field(const struct bytes *file, const char *letters, uint32_t number, size_t *length); /* of such a line */
void set_field(struct bytes *file, const char *letters, uint32_t number, const char *string);
uint32_t count_values(const struct bytes *text, size_t line, size_t line_length); /* of an attribute line */

/* generate.c */
void make_file(struct bytes *file);
void make_small_file(struct bytes *file); /* of an M with few values, whose pairs get many decisions; seldom refused */

/* edge_files.c */
void make_edge_file(struct bytes *file); /* near 16,384 bytes, good but for its size */

/* requests.c: a request line of the policy, or a bad one (of any policy, also one that was refused). */
void make_request(struct bytes *request, const struct policy *policy, int good);
void make_request_of(struct bytes *request, const struct policy *policy, int number);

/* given_names.c: the name of an attribute or a rule, which is field `number` of a line with such a letter, in other case or
 * with a fault, or of another thing, or of nothing. */
void make_name(struct bytes *name, const struct bytes *file, const char *letters, uint32_t number);

/* damage.c */
void damage(struct bytes *file);
uint8_t tricky_byte(void);
size_t pick_name(const struct bytes *file, size_t *length); /* of an element, an attribute or a value */

/* letter_case.c */
enum { CASE_BIT = 'a' ^ 'A', SPELLINGS = 4 };
void spell(char *name, int spelling); /* of small letters; makes no capital, the first byte one, all letters, any */
int turn_case(uint8_t *bytes, size_t length); /* of one letter or more; 0 if there is none */
uint8_t byte_beside_letters(void); /* the first and the last of A-Z and a-z, and the bytes just outside */
/* Gives a name another that is equal but for case; may lengthen it first. */
void make_equal(uint8_t name[NAME_BYTES], uint8_t other[NAME_BYTES], size_t *length);
void damage_case(struct bytes *file);

/* sets.c: attribute lines A and M, and how many values there may be of an M */
void damage_sets(struct bytes *file);

/* obliged_files.c */
void add_obligations(struct bytes *file); /* to some of the sets and policies of a file that has none */
void make_obliged_file(struct bytes *file); /* a small one, good, in which rules are needed for obligations */

/* damage_obligations.c */
void damage_obligations(struct bytes *file);

/* proposals.c: an accepted file of which proposals are made, with the rules that trimming strikes, in that order */
struct original {
    struct policy policy; /* what is struck in it is left out of the proposal made last */
    struct outcome outcomes[SPACE];
    int strikes, order[ELEMENTS];
};
void take_original(struct original *original, const struct bytes *file);
void make_trimmed(struct bytes *proposal, struct original *original);
void leave_out_rules(struct bytes *proposal, struct original *original);
void change_proposal(struct bytes *proposal); /* in a line or more; seldom in none */
void make_sparse_file(struct bytes *file); /* rules for few requests of many, so that the first one without a rule is late */

/* join_files.c: two files to be joined, and a word */
struct joining { struct bytes first, second, word; };
void make_joining(struct joining *joining);
void make_word(struct bytes *word, int good); /* one of the four, or another, or what is none */

/* join_edges.c */
void make_long_joining(struct joining *joining); /* the joined text has about 16,384 bytes */
/* An accepted file again, with other names for its elements, and its attributes, or some of them, in any order. */
void make_mate(struct bytes *mate, const struct policy *policy);

/* lists.c */
enum { LONGEST = ELEMENTS + 2 }; /* more than the writer looks at */

struct list {
    struct bytes lines;
    int attributes;         /* before the lines were damaged */
    int values[ATTRIBUTES];
    size_t elements;
    struct record record[LONGEST];
    size_t room;
};

/* damage_places.c */
void damage_places(struct list *list, struct record *record); /* of an element's obligations */

struct answer write_to(const struct list *list, uint8_t *out, size_t room); /* by the reference, into a filled buffer */
/* 0 if the list, before it was damaged, was not written as the file that it was read from. */
int make_list(struct list *list, uint64_t seed);

#endif
