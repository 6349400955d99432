/* jogimaduve_accept on whole families: small policies, of whose rule lines each choice is a proposal, for the policy itself and
 * for each original that is one or two rules less. What it must answer is worked out from the decisions and obligations that
 * jogimaduve_decide gives of every choice. */
#include "outcome.h"

enum { RULES = 7, CHOICES = 1 << RULES, REQUESTS = 20, LINES = 24, MOST = 700 };

static const char *const policies[] = {
    /* one policy, rules that are within others, repeated, behind others */
    "A\tx\ta\tb\tc\nA\ty\td\te\nP\t0\ttop\tfirst-applicable\t*\t*\n"
    "R\t1\tr1\tpermit\ta\t*\nR\t1\tr2\tdeny\ta,b\t*\nR\t1\tr3\tpermit\ta,c\t*\nR\t1\tr4\tdeny\tb\t*\nR\t1\tr5\tpermit\tc\te\nR\t1\tr6\tdeny\tb,c\te\n",
    /* a set whose policies have obligations, partly the same */
    "A\tx\ta\tb\nA\ty\td\te\nS\t0\ttop\tdeny-overrides\t*\t*\nO\tlog\tpermit\nO\tstop\tdeny\n"
    "P\t1\tp\tpermit-overrides\t*\t*\nO\tslow\tpermit\nR\t2\tr1\tpermit\ta\t*\nR\t2\tr2\tdeny\t*\td\n"
    "P\t1\tq\tfirst-applicable\ta\t*\nO\tslow\tpermit\nO\tstop\tdeny\nR\t2\tr3\tpermit\t*\td\nR\t2\tr4\tdeny\t*\te\n"
    "P\t1\tr\tdeny-overrides\t*\te\nR\t2\tr5\tpermit\t*\t*\nR\t2\tr6\tpermit\tb\t*\n",
    /* sets of values, and obligations that differ in letter case */
    "M\tRole\tTech\tguest\tLead\nA\tact\tJog\tteach\nS\t0\tCell\tpermit-overrides\t*\t*\nO\tLog\tpermit\n"
    "P\t1\tp\tfirst-applicable\tTech,Lead\t*\nO\tslow\tpermit\nR\t2\tr1\tpermit\tTech\t*\nR\t2\tr2\tdeny\tguest\tteach\nR\t2\tr3\tpermit\tLead\tJog\n"
    "P\t1\tq\tdeny-overrides\t*\t*\nO\tSlow\tpermit\nO\tlog\tdeny\nR\t2\tr4\tpermit\tguest,Lead\t*\nR\t2\tr5\tdeny\tguest\tJog\nR\t2\tr6\tpermit\tTech\tteach\n",
    /* indeterminate below first-applicable, and above it */
    "A\tx\ta\tb\tc\nS\t0\ttop\tfirst-applicable\t*\nO\tlog\tpermit\nP\t1\tfirst\tdeny-overrides\t*\nR\t2\tr1\tpermit\ta\nR\t2\tr2\tdeny\tb\nR\t2\tr3\tpermit\tb\n"
    "S\t1\tsole\tonly-one-applicable\t*\nP\t2\tp\tpermit-overrides\ta,b\nO\tslow\tpermit\nR\t3\tr4\tpermit\t*\nP\t2\tq\tfirst-applicable\tb,c\nO\tlog\tpermit\n"
    "R\t3\tr5\tpermit\tc\nR\t3\tr6\tdeny\t*\n",
    /* seven rules, of which none is needed alone */
    "M\tx\ta\tb\nA\ty\tc\td\nS\t0\ttop\tpermit-overrides\t*\t*\nP\t1\tp\tfirst-applicable\t*\t*\nO\tlog\tpermit\n"
    "R\t2\tr1\tpermit\ta\tc\nR\t2\tr2\tpermit\t*\tc\nR\t2\tr3\tpermit\ta\t*\nR\t2\tr4\tdeny\tb\t*\nP\t1\tq\tdeny-overrides\t*\t*\nO\tlog\tpermit\n"
    "R\t2\tr5\tpermit\tb\tc\nR\t2\tr6\tpermit\ta\td\nR\t2\tr7\tdeny\tb\td\n",
};

/* The lines of a policy. Rules are numbered from the top. */
static int lines, rules;
static const char *line_at[LINES];
static size_t line_length[LINES];

/* A choice of rules, by their numbers: its text, where its rules stand in it, and what each request gets. */
static struct choice {
    uint8_t text[MOST];
    size_t size;
    uint32_t line[RULES];
    struct outcome outcome[REQUESTS];
    uint32_t needless; /* the line of its topmost rule without which it is alike, or 0 */
} choices[CHOICES];
static int requests;

static void split(const char *policy) {
    lines = rules = 0;
    declare_all(policy);
    for (; *policy != '\0'; policy += line_length[lines++]) {
        line_at[lines] = policy;
        line_length[lines] = strcspn(policy, "\n") + 1;
        rules += *policy == 'R';
    }
}

static void choose(unsigned rule_set) {
    struct choice *choice = &choices[rule_set];
    int rule = 0;
    uint32_t line = 0;
    choice->size = 0;
    for (int i = 0; i < lines; i++) {
        int is_rule = *line_at[i] == 'R';
        if (is_rule && !(rule_set >> rule++ & 1)) continue;
        memcpy(choice->text + choice->size, line_at[i], line_length[i]);
        choice->size += line_length[i];
        line++;
        if (is_rule) choice->line[rule - 1] = line;
    }
}

static void decide_all(struct choice *choice) {
    struct outcome beyond;
    requests = 0;
    while (requests < REQUESTS && outcome_of(choice->text, choice->size, requests, &choice->outcome[requests])) requests++;
    check(!outcome_of(choice->text, choice->size, requests, &beyond), "all requests", __LINE__);
}

/* The first request that gets another outcome, or -1. */
static int first_other(unsigned one, unsigned other) {
    for (int i = 0; i < requests; i++) {
        if (!same_outcome(&choices[one].outcome[i], &choices[other].outcome[i])) return i;
    }
    return -1;
}

/* By the outcomes without each rule; jogimaduve_strike and jogimaduve_next_rule say the same. */
static void find_needless(unsigned rule_set) {
    struct choice *choice = &choices[rule_set];
    uint8_t text[MOST], name[JOGIMADUVE_LONGEST_NAME];
    unsigned last = 0;
    choice->needless = 0;
    for (int rule = 0; rule < rules; rule++) {
        if (!(rule_set >> rule & 1)) continue;
        char named[] = {'r', (char)('1' + rule)};
        const struct choice *left = &choices[rule_set - (1u << rule)];
        int alike = first_other(rule_set, rule_set - (1u << rule)) < 0;
        jogimaduve_answer struck = jogimaduve_strike(choice->text, choice->size, (const uint8_t *)named, sizeof named, text, sizeof text);
        answers(struck, alike ? 0 : 15, alike ? (uint32_t)left->size : 0, "a rule struck", __LINE__);
        check(!alike || memcmp(text, left->text, left->size) == 0, "a rule struck", __LINE__);
        if (alike && choice->needless == 0) choice->needless = choice->line[rule];
        if (alike) last = (unsigned)rule + 1;
    }
    answers(jogimaduve_next_rule(choice->text, choice->size, name, sizeof name), 0, last > 0 ? 2 : 0, "the next rule", __LINE__);
    check(last == 0 || name[1] == '0' + last, "the next rule", __LINE__);
}

static jogimaduve_answer expected(unsigned original, unsigned proposal) {
    for (int rule = 0; rule < rules; rule++) {
        if (proposal >> rule & ~original >> rule & 1) return (jogimaduve_answer){16, choices[proposal].line[rule]};
    }
    int request = first_other(original, proposal);
    if (request >= 0) return (jogimaduve_answer){17, (uint32_t)request};
    if (choices[proposal].needless > 0) return (jogimaduve_answer){18, choices[proposal].needless};
    return (jogimaduve_answer){0, 0};
}

/* What came up. Each has to, so that none is tried on nothing. */
enum { ACCEPTED, NOT_TRIMMED, SHORTER, OTHER_LINE, OTHER_DECISION, OTHER_OBLIGATIONS, NEEDLESS, NOT_NEXT, THINGS };
static const char *const things[THINGS] = {
    "accepted", "accepted, not what trimming leaves", "accepted, shorter than what trimming leaves", "another line",
    "another decision", "other obligations alone", "a rule that does no work", "a rule that is not the next to strike",
};
static long seen[THINGS];

static void count(unsigned original, unsigned proposal, jogimaduve_answer answer) {
    const struct choice *one = &choices[original], *other = &choices[proposal];
    uint8_t text[MOST], name[JOGIMADUVE_LONGEST_NAME];
    if (answer.number == 16) seen[OTHER_LINE]++;
    if (answer.number == 17) {
        seen[one->outcome[answer.second].decision != other->outcome[answer.second].decision ? OTHER_DECISION : OTHER_OBLIGATIONS]++;
    }
    if (answer.number == 18) {
        seen[NEEDLESS]++;
        jogimaduve_next_rule(other->text, other->size, name, sizeof name);
        if (other->line[name[1] - '1'] != answer.second) seen[NOT_NEXT]++;
    }
    if (answer.number != 0) return;
    seen[ACCEPTED]++;
    jogimaduve_answer trimmed = jogimaduve_trim(one->text, one->size, text, sizeof text);
    if (trimmed.second != other->size || memcmp(text, other->text, other->size) != 0) seen[NOT_TRIMMED]++;
    if (trimmed.second > other->size) seen[SHORTER]++;
}

static int missing(unsigned rule_set) {
    int count = 0;
    for (int rule = 0; rule < rules; rule++) count += !(rule_set >> rule & 1);
    return count;
}

static void against_all(unsigned original) {
    const struct choice *one = &choices[original];
    for (unsigned proposal = 0; proposal < 1u << rules; proposal++) {
        const struct choice *other = &choices[proposal];
        jogimaduve_answer wanted = expected(original, proposal);
        answers(jogimaduve_accept(one->text, one->size, other->text, other->size), wanted.number, wanted.second, "a choice of rules", __LINE__);
        count(original, proposal, wanted);
    }
}

static void against_itself(unsigned original) {
    const struct choice *one = &choices[original];
    uint8_t before[MOST];
    memcpy(before, one->text, sizeof before);
    answers(jogimaduve_accept(one->text, one->size, one->text, one->size), one->needless > 0 ? 18 : 0, one->needless, "itself", __LINE__);
    check(memcmp(before, one->text, sizeof before) == 0, "itself", __LINE__);
}

static void family(const char *policy) {
    split(policy);
    check(rules <= RULES && lines <= LINES && strlen(policy) <= MOST, policy, __LINE__);
    for (unsigned choice = 0; choice < 1u << rules; choice++) {
        choose(choice);
        decide_all(&choices[choice]);
    }
    for (unsigned choice = 0; choice < 1u << rules; choice++) find_needless(choice);
    for (unsigned original = 0; original < 1u << rules; original++) {
        if (missing(original) <= 2) against_all(original);
        against_itself(original);
    }
}

int main(void) {
    for (size_t i = 0; i < sizeof policies / sizeof *policies; i++) family(policies[i]);
    for (int i = 0; i < THINGS; i++) check(seen[i] >= 5, things[i], __LINE__);
    return checks_done();
}
