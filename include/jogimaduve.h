/* Jogimaduve: access policies of robot arms. The library is for Linux on x86-64.
 *
 * Every operation takes a policy file as bytes, jogimaduve_accept and jogimaduve_join two, and relies on no earlier call. It
 * keeps nothing, allocates nothing and may be called from several threads at once. Pointers must not be NULL, also where a
 * length is 0. The buffer must not overlap a file, a request, a name or a word: a text that is written over its own file comes
 * out wrong, with no sign of it. Only jogimaduve_step writes to the file that it is given: nothing else, another thread or a
 * signal handler, may use those bytes meanwhile.
 *
 * Each answers two numbers, jogimaduve_decide and jogimaduve_step three. `number` is 0 where the operation did its work;
 * `second` is then its result. Any other `number` is a refusal, so test it first: the `second` of a refusal can be
 * JOGIMADUVE_PERMIT. A refused operation leaves lent memory as it was. A buffer of length 0 asks for the bytes that a text
 * needs.
 */
#ifndef JOGIMADUVE_H
#define JOGIMADUVE_H

#include <stddef.h>
#include <stdint.h>

#define JOGIMADUVE_VERSION "2.4.0"

#ifdef __cplusplus
extern "C" {
#endif

typedef struct {
    uint32_t number;
    uint32_t second;
} jogimaduve_answer;

typedef struct {
    uint32_t number;
    uint32_t second;
    uint32_t length; /* of the obligations in the buffer; 0 with a refusal */
} jogimaduve_decision;

typedef struct {
    uint32_t number;
    uint32_t second;
    uint32_t struck; /* 1 if a rule was struck, 0 if none is left to strike; 0 with a refusal */
} jogimaduve_stepped;

/* `number`, and what `second` is then. Lines and places count from 1. */
enum {
    JOGIMADUVE_DONE = 0,
    JOGIMADUVE_TOO_LONG = 1,      /* 0: the file exceeds JOGIMADUVE_LONGEST_FILE bytes */
    JOGIMADUVE_BAD_LINE = 2,      /* line: empty line or field, other byte, no last newline, wrong first field or field count */
    JOGIMADUVE_BAD_NAME = 3,      /* line: a name not of 1 to 16 of a-z, A-Z, 0-9 and hyphen, or with a hyphen first */
    JOGIMADUVE_NAME_USED = 4,     /* line: name used before, letter case aside; of an obligation, on its element */
    JOGIMADUVE_TOO_MANY = 5,      /* line: attribute 7, value 17 (of an M line: 13), space over 4,096, element 65 */
    JOGIMADUVE_BAD_PLACE = 6,     /* line: attribute behind a tree line, tree line before any, bad depth, place or parent */
    JOGIMADUVE_BAD_WORD = 7,      /* line: word not allowed for its kind */
    JOGIMADUVE_BAD_TARGET = 8,    /* line: bad target; its values are spelled as on the attribute line */
    JOGIMADUVE_NO_ELEMENT = 9,    /* 0: no tree line */
    JOGIMADUVE_BAD_REQUEST = 10,  /* place of the first request field that is no value, or no set of values; 0 if the field count is wrong */
    JOGIMADUVE_SHORT_BUFFER = 11, /* bytes: so many are needed */
    JOGIMADUVE_NO_M_LINE = 13,    /* 0: the name given is not that of an attribute of an M line; told before 11 */
    JOGIMADUVE_BAD_OBLIGATION = 14, /* line: an O line not behind S, P or O, or the third of its element; told before 7 */
    JOGIMADUVE_NOT_NEEDLESS = 15,  /* 0: the name given is not that of a rule that does no work; told before 11 */
    JOGIMADUVE_OTHER_LINE = 16,    /* line of the proposal that is not the original's next; 0 if all are, but one that is no rule is left over */
    JOGIMADUVE_OTHER_OUTCOME = 17, /* request: the number of the first that gets another decision, or other obligations */
    JOGIMADUVE_NEEDLESS_RULE = 18, /* line of the proposal's topmost rule that does no work */
    JOGIMADUVE_OTHER_ATTRIBUTE = 19 /* line of the second file's first attribute that has a name of the first file, but another letter or other values */
};

/* What a request gets: `second` of jogimaduve_decide. */
enum { JOGIMADUVE_PERMIT = 0, JOGIMADUVE_DENY = 1, JOGIMADUVE_NOT_APPLICABLE = 2, JOGIMADUVE_INDETERMINATE = 3 };

/* Sizes in bytes: the longest file, and so the longest trimmed or joined text; the longest name; the longest request that can
 * be good; the most that a decision's obligations can have, which is 110 names; a buffer for the report of most files; and the
 * stack that an operation may use, to be added to what a thread needs besides. */
enum {
    JOGIMADUVE_LONGEST_FILE = 16384,
    JOGIMADUVE_LONGEST_NAME = 16,
    JOGIMADUVE_LONGEST_REQUEST = 288,
    JOGIMADUVE_LONGEST_OBLIGATIONS = 1870,
    JOGIMADUVE_REPORT_BUFFER = 65536,
    JOGIMADUVE_DECIDE_STACK = 65536,
    JOGIMADUVE_TRIM_STACK = 65536,
    JOGIMADUVE_NEXT_RULE_STACK = 65536,
    JOGIMADUVE_STRIKE_STACK = 65536,
    JOGIMADUVE_STEP_STACK = 65536,
    JOGIMADUVE_ACCEPT_STACK = 65536,
    JOGIMADUVE_JOIN_STACK = 65536,
    JOGIMADUVE_REPORT_STACK = 262144,
    JOGIMADUVE_VALUE_PAIRS_STACK = 65536
};

/* Decides a request: one field for each attribute of the file, in order, parted by tabs, no newline. For an attribute of an
 * A line it is a value's name; for one of an M line the names of one or more values, each once and in the order of that
 * line, parted by commas: a target matches if it has one of them. Names may be in any letter case.
 *
 * With permit and deny come the obligations of the file's O lines: the names of those for this decision, of the elements
 * that were asked and gave it, each element above them too, in file order, with a newline behind each. They go into the
 * buffer and `length` is the length of that text; bytes behind it stay as they were. Only a caller that carries out the
 * obligations may move the arm on permit: one that doesn't know a name among them must not. Not-applicable and indeterminate
 * give none and need no room. */
jogimaduve_decision jogimaduve_decide(const uint8_t *file, size_t file_length,
                                      const uint8_t *request, size_t request_length,
                                      uint8_t *buffer, size_t buffer_length);

/* Strikes the rules that do no work: the file's lines less theirs go into the buffer, and `second` is the length of that
 * text, never more than the file's. It decides every request as the file does, with the same obligations, faults of the file
 * included: a rule that is struck would not come back if they were repaired in the text. Bytes behind the text stay as they
 * were. */
jogimaduve_answer jogimaduve_trim(const uint8_t *file, size_t file_length, uint8_t *buffer, size_t buffer_length);

/* Trimming rule by rule, for labs that sign for each. Shows the rule that trimming would strike next: its name, as the file
 * spells it, goes into the buffer with no newline and no zero byte behind it, and `second` is its length;
 * JOGIMADUVE_LONGEST_NAME bytes are always enough. Where every rule does work `second` is 0 and nothing is written. Bytes
 * behind the name stay as they were. */
jogimaduve_answer jogimaduve_next_rule(const uint8_t *file, size_t file_length, uint8_t *buffer, size_t buffer_length);

/* Strikes one rule, which is named in any letter case: the file's lines less that rule's go into the buffer, and `second` is
 * the length of that text, less than the file's. It may be any rule that does no work in this file, not only the one shown; any other name is
 * refused with JOGIMADUVE_NOT_NEEDLESS. The text decides every request as the file does, with the same obligations. Bytes
 * behind the text stay as they were.
 *
 * To show a rule and strike it, then the next in the text that is left, until none is shown, ends in the bytes that
 * jogimaduve_trim gives. The text is then the next call's file, so it takes two buffers in turn. */
jogimaduve_answer jogimaduve_strike(const uint8_t *file, size_t file_length,
                                    const uint8_t *rule, size_t rule_length,
                                    uint8_t *buffer, size_t buffer_length);

/* Trims one rule at a time and in place, for an arm that cannot stand still while a large policy is trimmed. Strikes the rule
 * that trimming would strike next: its line is left out of the text, those behind it close up, `second` is the length of the
 * text now, and `struck` is 1. Bytes from that length on stay as they were. Where every rule does work `struck` is 0, `second`
 * is the length that was given, and nothing changes, now and at every later step. A text that is no policy file is refused
 * with 1 to 9 or 14.
 *
 * The text left is all that is held, and any policy file is a fresh state. The next step, and jogimaduve_decide between steps,
 * take the text left with its length now: with the length of before, struck lines can be back. Every request gets what the file
 * first handed in gives it, with the same obligations. Steps until none is struck end in the bytes that jogimaduve_trim gives. */
jogimaduve_stepped jogimaduve_step(uint8_t *text, size_t text_length);

/* Tells whether a proposal, a policy file that another program made of an original, may be loaded in its place. `number` and
 * `second` are both 0 exactly if it is sound: it is the original's lines with only rule lines left out, it decides every request
 * as the original does, with the same obligations, and every rule in it does work. What jogimaduve_trim gives of the original
 * is accepted; so can other texts be, with other rules and more or fewer of them.
 *
 * Else the answer is the first of these that holds:
 * - 1 to 9 or 14: the original is no policy file, or else the proposal is none. Which of the two is meant is not told. To tell,
 *   give the original alone to another operation: jogimaduve_trim with a buffer of length 0 answers JOGIMADUVE_SHORT_BUFFER if
 *   the original is good, so that it was the proposal.
 * - JOGIMADUVE_OTHER_LINE: a line of the proposal is not, to the byte, the next of the original, where only rule lines may be
 *   passed over; or, with 0, all its lines are, but one behind them in the original that is no rule line is missing.
 * - JOGIMADUVE_OTHER_OUTCOME: a request gets another decision, or other obligations. Requests are numbered from 0 in the order
 *   of the values on their attribute lines, the last attribute changing first; a set of values of an M line has as its number
 *   the sum of 1 for the first value, 2 for the second, 4 for the third and so on, less 1.
 * - JOGIMADUVE_NEEDLESS_RULE: the proposal would decide every request alike, with the same obligations, without this one rule.
 *   It is the topmost such rule; jogimaduve_next_rule shows the last.
 *
 * Nothing is written, and no memory is lent: the two files may overlap, or be the same bytes. Load the bytes that were
 * accepted, not a file that is read again: it can have changed meanwhile. */
jogimaduve_answer jogimaduve_accept(const uint8_t *original, size_t original_length,
                                    const uint8_t *proposal, size_t proposal_length);

/* Joins two policy files, say the arm's maker's and the lab's, for an arm that takes a single one. The joined text goes into the
 * buffer, and `second` is its length; bytes behind the text stay as they were. JOGIMADUVE_LONGEST_FILE bytes are always enough.
 *
 * Attributes of equal names, letter case aside, become one: the first file's line stays in its place, and the lines of the
 * second file alone follow. Then comes a set named `joined`, with the word that is given and all targets `*`, and below it
 * the first file's elements and then the second's, each a level deeper than before. Their targets are in the order of the
 * joined attributes, with `*` at one that the file lacks. All else keeps its bytes, O lines too. The word is one of
 * deny-overrides, permit-overrides, first-applicable and only-one-applicable, in these letters, with nothing behind it.
 *
 * The joined text decides every request as that algorithm does over the two files' decisions, each on its own attributes, with
 * the obligations of each file that was asked and gave that decision, the first file's first. Under only-one-applicable the
 * target of a file's first element says whether the file matches.
 *
 * Else the answer is the first of these that holds:
 * - 1 to 9 or 14: the first file is no policy file, or else the second is none.
 * - JOGIMADUVE_OTHER_ATTRIBUTE: an attribute of the second file has a name of the first's, letter case aside, but another letter
 *   (A or M), or values that are not the same to the byte and in the same order.
 * - JOGIMADUVE_BAD_WORD: the word is none of the four. The line is that of `joined`: the attributes of both files, and one more.
 * - 1, 4, 5 or 6: the joined text is no policy file, and the line is one of that text. It exceeds JOGIMADUVE_LONGEST_FILE
 *   bytes; or an element has a name of the other file's, or is called `joined`, letter case aside; or there are more than 6
 *   attributes, 4,096 requests or, `joined` among them, 64 elements; or an element has depth 7, which becomes 8.
 * - JOGIMADUVE_SHORT_BUFFER.
 * Whether 1 to 9 mean the first file, the second, the word or the joined text is not told. To tell, give each file alone to
 * another operation, as said of jogimaduve_accept.
 *
 * The two files and the word may overlap. */
jogimaduve_answer jogimaduve_join(const uint8_t *first, size_t first_length,
                                  const uint8_t *second, size_t second_length,
                                  const uint8_t *word, size_t word_length,
                                  uint8_t *buffer, size_t buffer_length);

/* Reports on a file: its segments (G), conflicts (C), the rules that trimming strikes (X) and those that it keeps (K), as
 * lines of fields parted by tabs. Every build gives the same bytes for the same file. The text goes into the buffer and
 * `second` is its length, which can be some millions of bytes. Bytes behind the text stay as they were. */
jogimaduve_answer jogimaduve_report(const uint8_t *file, size_t file_length, uint8_t *buffer, size_t buffer_length);

/* Tells where two values of an attribute of an M line get another decision than one of them alone. The attribute is given by
 * its name, in any letter case. For each pair of its values and each choice of the other attributes there is a line (D) if
 * the decision with both values differs from that with the earlier alone or with the later alone, obligations aside: the
 * number of the request with both, the decision with both, with the earlier, with the later, as fields parted by tabs; the
 * lines rise by that number. The text goes into the buffer and `second` is its length, 0 where there is no such pair. Bytes
 * behind the text stay as they were. */
jogimaduve_answer jogimaduve_value_pairs(const uint8_t *file, size_t file_length,
                                         const uint8_t *attribute, size_t attribute_length,
                                         uint8_t *buffer, size_t buffer_length);

#ifdef __cplusplus
}
#endif

#endif
