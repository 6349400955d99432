/* Evaluating the whole space, 64 requests at a time: bit i of a word stands for request i of a block. */
#ifndef PLAIN_SPACE_H
#define PLAIN_SPACE_H

#include "plain_policy.h"

enum { BLOCKS = SPACE / 64 };

/* Requests to which an element gives these; not-applicable to those in none. */
struct gives { uint64_t permit, deny, indeterminate; };

/* Requests whose decision would be another one if an element gave this instead of what it gives. */
struct changes { uint64_t permit, deny, indeterminate, not_applicable; };

struct block {
    uint64_t active;             /* elements that apply to any of the requests */
    struct gives gives[ELEMENTS];
    struct gives asked[ELEMENTS]; /* what the children give, put together */
    struct gives later[ELEMENTS]; /* the same, of the siblings behind an element alone */
    uint64_t matched[ELEMENTS], matched_twice[ELEMENTS]; /* by the target of one child, of two, if only one may be */
};

/* Which elements' obligations come with a decision, by requests. */
struct chain {
    uint64_t asked[ELEMENTS]; /* the element and all above it are asked */
    uint64_t given[ELEMENTS]; /* and give the decision that the first one gives, which is permit or deny */
};

/* Only of a policy with obligations. */
struct obliged {
    uint64_t given[BLOCKS][ELEMENTS];
    uint64_t perhaps[BLOCKS][ELEMENTS]; /* without the rule another decision comes from its policy, but not in the end */
    uint64_t needed[BLOCKS];            /* rules of which a request's obligations are known to change */
    uint8_t alike[OBLIGATIONS * ELEMENTS]; /* the first obligation with the same bytes */
};

struct trimming {
    uint64_t applies[BLOCKS][ELEMENTS]; /* none for a rule that was struck */
    uint64_t active[BLOCKS], needed[BLOCKS];
    uint8_t first[BLOCKS][ELEMENTS]; /* of the needed rules: a request that needs it, counted in its block */
    unsigned blocks, strikes;
    uint64_t kept;               /* rules */
    uint8_t struck[ELEMENTS];    /* in the order struck */
    struct obliged obliged;
};

static inline int lowest(uint64_t set) { return __builtin_ctzll(set); }
static inline int highest(uint64_t set) { return 63 - __builtin_clzll(set); }
static inline uint64_t bit(int place) { return (uint64_t)1 << place; }

static inline uint64_t any(struct gives gives) { return gives.permit | gives.deny | gives.indeterminate; }

static inline struct gives join(struct gives a, struct gives b)
{
    return (struct gives){a.permit | b.permit, a.deny | b.deny, a.indeterminate | b.indeterminate};
}

/* The requests to which each element applies, by blocks, and the elements that apply to any of a block's. None do
 * between the space's end and its last block's. */
void plain_apply(const struct policy *policy, uint64_t applies[BLOCKS][ELEMENTS], uint64_t active[BLOCKS]);

/* What every element gives, from the requests to which it applies. The block says which elements are active. */
void plain_evaluate(const struct policy *policy, struct block *block, const uint64_t applies[ELEMENTS]);

void plain_start_trimming(struct trimming *trimming, const struct policy *policy);

/* What every element gives on a block's requests; of a policy with obligations, also whose come with the decisions. */
void plain_decide_block(const struct trimming *trimming, const struct policy *policy, unsigned number,
                        struct block *block, struct chain *chain);

/* Which rules are needed there. */
void plain_find_needed(struct trimming *trimming, const struct policy *policy, unsigned number, struct block *block,
                       const struct chain *chain);

/* Both, one after the other. */
void plain_look_at(struct trimming *trimming, const struct policy *policy, unsigned number, struct block *block);

/* Strikes the last needless rule while there is one, once every block was looked at. */
void plain_strike_needless(struct trimming *trimming, const struct policy *policy);

/* Reads a file and finds the rule that is struck first, or -1. Nothing is found in a file that is refused. */
jogimaduve_answer plain_find_needless(struct policy *policy, const uint8_t *file, size_t length, int *rule);

/* Fills the chain for all sets and policies. */
void plain_chain(const struct policy *policy, const struct block *block, struct chain *chain);

void plain_start_obliged(struct obliged *obliged, const struct policy *policy);

/* The first of some requests of a block that get other names from these elements than from those; 64 if there is none. Both
 * times they get the decision that `root` has. */
unsigned plain_first_other_names(const struct trimming *trimming, const struct policy *policy, struct gives root,
                                 const uint64_t with[ELEMENTS], const uint64_t without[ELEMENTS], uint64_t requests);

/* The first of some requests of a block whose obligations change without a rule that changes none of their decisions; 64 if
 * there is none. */
unsigned plain_first_other(const struct trimming *trimming, const struct policy *policy, unsigned number, int rule,
                           uint64_t requests);

/* Whether any request needs a rule for its obligations that none needs for its decision. */
bool plain_needs_obligations(struct trimming *trimming, const struct policy *policy, int rule);

/* The first request of all that needs a rule that is kept. */
unsigned plain_first_need(const struct trimming *trimming, const struct policy *policy, int rule);

#endif
