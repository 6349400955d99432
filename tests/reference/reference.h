/* Reference implementation of paper 01 with changes C-11 to C-20, written from the papers alone: plain code, for
 * comparing with. What C-16 calls a duty is an obligation here, as in XACML.
 *
 * Every function answers two numbers. `number` is 0 where the work was done, and `second` is then the result; any other
 * `number` is the paper's refusal with its second number. Lent memory is left as it was on every refusal. */
#ifndef REFERENCE_H
#define REFERENCE_H

#include <stddef.h>
#include <stdint.h>

struct answer { uint32_t number, second; };

/* `second` is the decision: permit 0, deny 1, not-applicable 2, indeterminate 3; `length` is that of the obligations that
 * come with it, 0 for a refusal. */
struct decided { uint32_t number, second, length; };
struct decided ref_decide(const uint8_t *file, size_t file_len, const uint8_t *request, size_t request_len, uint8_t *out,
                          size_t room);

/* `second` is the length of the trimmed text. */
struct answer ref_trim(const uint8_t *file, size_t len, uint8_t *out, size_t room);

/* `second` is the length of the name of the rule that trimming strikes next, or 0 if there is none. */
struct answer ref_next_rule(const uint8_t *file, size_t len, uint8_t *out, size_t room);

/* `second` is the length of the file without the needless rule that is named. */
struct answer ref_strike(const uint8_t *file, size_t len, const uint8_t *name, size_t name_len, uint8_t *out, size_t room);

/* Strikes the rule that trimming strikes next, in the text itself. `second` is the text's length then; the bytes from there
 * on stay as they were. `struck` is 1 if there was such a rule, 0 if none is left, and 0 for a refusal. */
struct stepped { uint32_t number, second, struck; };
struct stepped ref_step(uint8_t *text, size_t len);

/* `second` is 0 where the proposal is accepted. What refuses either file is told alike, the original's first. */
struct answer ref_accept(const uint8_t *original, size_t original_len, const uint8_t *proposal, size_t proposal_len);

/* `second` is the length of the joined text. What refuses a file and what refuses the joined text is told alike. */
struct answer ref_join(const uint8_t *first, size_t first_len, const uint8_t *second, size_t second_len, const uint8_t *word,
                       size_t word_len, uint8_t *out, size_t room);

/* `second` is the length of the report. Each conflict is shown by its lowest request. */
struct answer ref_report(const uint8_t *file, size_t len, uint8_t *out, size_t room);

/* `second` is the length of the D lines of the M attribute that is named. */
struct answer ref_pairs(const uint8_t *file, size_t len, const uint8_t *name, size_t name_len, uint8_t *out, size_t room);

/* What follows is for the reference's own files. */

enum { FILE_BYTES = 16384, NAME_BYTES = 16, ATTRIBUTES = 6, VALUES = 16, SET_VALUES = 12, SPACE = 4096, ELEMENTS = 64 };
enum { OBLIGATIONS = 2 }; /* of an element */

enum decision { PERMIT, DENY, NOT_APPLICABLE, INDETERMINATE };

enum word {
    EFFECT_PERMIT, EFFECT_DENY,
    DENY_OVERRIDES, PERMIT_OVERRIDES, FIRST_APPLICABLE, ONLY_ONE_APPLICABLE,
    WORDS
};

/* Some bytes of the file, which the caller keeps. */
struct slice { const uint8_t *bytes; size_t length; };

struct attribute {
    char letter;                /* 'A': a request holds one of its values; 'M': a set of one or more */
    struct slice name;
    int values;                 /* at most VALUES, of an M at most SET_VALUES */
    struct slice value[VALUES];
    int count;                  /* what it counts in the space: its values, or the sets that there are of them */
};

struct obligation { struct slice name; enum word word; }; /* for a permit or for a deny */

struct element {
    char kind;                   /* 'S' policy set, 'P' policy, 'R' rule */
    int depth;
    struct slice name;
    enum word word;
    unsigned target[ATTRIBUTES]; /* masks: bit 0 is the first value */
    int obligations;
    struct obligation obligation[OBLIGATIONS];
    struct slice line;           /* its whole line and those of its obligations, newlines included */
    int parent;                  /* place of the parent; -1 for the first element */
    int children;
    int child[ELEMENTS];         /* places of the children, in file order */
    int struck;                  /* a struck rule is no child of its policy any more */
};

struct policy {
    int attributes;
    struct attribute attribute[ATTRIBUTES];
    int space;
    struct slice attribute_lines;
    int elements;
    struct element element[ELEMENTS];
    char before; /* letter of the last line that was read, or 0 */
};

/* read.c */
extern const struct word_text { const char *text, *kinds; } words[WORDS]; /* each word, and the kinds it is for */
struct answer read_policy(const uint8_t *file, size_t length, struct policy *policy);
int equal_names(struct slice a, struct slice b); /* letter case (A-Z, a-z) aside; no other bytes are alike */
int is_name(struct slice field);
int value_number(const struct attribute *attribute, struct slice name); /* letter case aside; -1 if it is no value */

/* The mask of values parted by single commas, in declared order and each once, or 0 for another field: no such list has
 * an empty mask. Each value is spelt as its attribute line does or, where that is not asked for, letter case aside. */
unsigned mask_of_list(const struct attribute *attribute, struct slice field, int spelt_alike);
int parent_of(const struct policy *policy, int depth); /* the nearest earlier element of depth one less, or -1 */
int well_placed(const struct policy *policy, char kind, int depth, int parent);

/* output.c: a text grows (from all zeros) and is lent out only when it is whole, so that a refusal leaves the buffer as it
 * was. Lending gives the text up and answers 0 or 11, with its length. */
struct text { uint8_t *bytes; size_t length, room; };
void put_bytes(struct text *text, const void *bytes, size_t length);
void put_string(struct text *text, const char *string);
void put_number(struct text *text, int number);
struct answer lend_text(struct text *text, uint8_t *out, size_t room);

/* decide.c: `held` has, for each attribute, a mask of the values that the request holds. It is never empty, and of an A
 * it has one value. */
unsigned held_by(const struct attribute *attribute, int number); /* by a request with this number for the attribute */
void values_of(const struct policy *policy, int request, unsigned held[ATTRIBUTES]);
int applies(const struct policy *policy, int place, const unsigned held[ATTRIBUTES]);
int matches(const struct policy *policy, int place, const unsigned held[ATTRIBUTES]); /* its own target */
enum decision gives(const struct policy *policy, int place, const unsigned held[ATTRIBUTES]);
extern const char *const decision_words[4];

/* obligations.c */

/* The tests 3, 4, 14 and 7 of an obligation behind a line with the letter `before`, in that order; a good one joins the last
 * element. The word is WORDS if it is none. */
uint32_t add_obligation(struct policy *policy, char before, struct slice name, enum word word);

/* What a request gets. The obligations are names with a newline after each. */
enum { OBLIGATION_BYTES = OBLIGATIONS * (ELEMENTS - 1) * (NAME_BYTES + 1) }; /* more than there can be: one is a rule */
struct outcome { enum decision decision; size_t length; uint8_t obligations[OBLIGATION_BYTES]; };
int asked_by(const struct policy *policy, int place, const unsigned held[ATTRIBUTES], int asked[ELEMENTS]); /* how many */
void find_outcome(const struct policy *policy, const unsigned held[ATTRIBUTES], struct outcome *outcome);
int same_outcome(const struct outcome *one, const struct outcome *other);
void find_outcomes(const struct policy *policy, struct outcome outcomes[SPACE]); /* of every request */

/* A place for an obligation in a record: unused ones are zero, with the word permit. */
struct place {
    uint8_t name[NAME_BYTES];  /* zero bytes behind the name */
    uint8_t length;            /* of the name */
    enum word word;
};

/* An element of the list that the writer takes. */
struct record {
    char kind;
    uint8_t depth;
    uint8_t name[NAME_BYTES];  /* zero bytes behind the name */
    uint8_t length;            /* of the name */
    enum word word;
    uint16_t mask[ATTRIBUTES]; /* zero behind the last attribute */
    uint8_t obligations;       /* how many; there are places for two */
    struct place place[OBLIGATIONS];
};

/* write.c: `second` is the length of the file. */
struct answer ref_write(struct slice lines, const struct record *list, size_t elements, uint8_t *out, size_t room);

/* trim.c */
int first_change(struct policy *policy, int rule, const struct outcome outcomes[SPACE]); /* the space if there is none */
int next_needless(struct policy *policy, const struct outcome outcomes[SPACE]); /* the next rule to strike, or -1 */
int strike_needless(struct policy *policy, const struct outcome outcomes[SPACE], int order[ELEMENTS]);
struct answer lend_left(const struct policy *policy, uint8_t *out, size_t room); /* the lines that are not struck */

/* rules.c */
int element_named(const struct policy *policy, struct slice name); /* letter case aside; -1 if no element has the name */

/* pairs.c */
struct pair { int request; enum decision both, earlier, later; }; /* the request with both, and the three decisions */
int set_named(const struct policy *policy, struct slice name); /* letter case aside; -1 if no M has the name */
int pairs_of(const struct policy *policy, int attribute, struct pair line[SPACE]); /* that are listed, and how many */

#endif
