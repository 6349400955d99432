/* Files with obligations. */
#include "file_lines.h"

#include <stdio.h>
#include <string.h>

struct laboratory_obligation { const char *element, *name, *word; };

static const struct laboratory_obligation laboratory[] = {
    {"arm", "log-move", "permit"}, {"arm", "log-refusal", "deny"}, {"locked-nests", "alarm", "deny"},
    {"staff", "lower-speed", "permit"}, {"learners", "lower-speed", "permit"}, {"learners", "tell-lead", "permit"},
    {"emergency", "alarm", "deny"}, {"motion", "lower-speed", "permit"}, {"jogging", "tell-lead", "deny"},
    {"teaching", "lower-speed", "permit"}, {"teaching", "log-teach", "permit"}, {"grip-racks", "check-grip", "permit"},
    {"grip-wet", "check-grip", "permit"}, {"grip-wet", "dry-nest", "permit"},
};

static void obligation(struct policy_file *file, const char *name, const char *word)
{
    char line[40];

    snprintf(line, sizeof line, "O\t%s\t%s\n", name, word);
    put(file, line);
}

/* Those of the laboratory's element of this name. */
static void oblige_named(struct policy_file *file, const char *name)
{
    for (size_t i = 0; i < sizeof laboratory / sizeof *laboratory; i++)
        if (strcmp(laboratory[i].element, name) == 0)
            obligation(file, laboratory[i].name, laboratory[i].word);
}

static void oblige_alike(struct policy_file *file)
{
    obligation(file, "log", "permit");
    obligation(file, "lower-speed", "permit");
}

static void oblige_each(struct policy_file *file, const char *name)
{
    obligation(file, "log", "permit");
    obligation(file, name, "deny");
}

/* Lays the lines down again, and behind each set and policy what it is obliged to. */
static void oblige(struct policy_file *file, void with(struct policy_file *file, const char *name))
{
    static char lines[MOST_FILE_BYTES + 1];
    char letter, name[MOST_NAME_BYTES + 1];

    memcpy(lines, file->bytes, file->length);
    lines[file->length] = 0;
    file->length = 0;
    for (char *line = lines, *end; *line != 0; line = end + 1) {
        end = strchr(line, '\n');
        *end = 0;
        put(file, line);
        put(file, "\n");
        if (sscanf(line, "%c %*c %16s", &letter, name) == 2 && (letter == 'S' || letter == 'P'))
            with(file, name);
    }
}

void oblige_laboratory(struct policy_file *file) { oblige(file, oblige_named); }
void oblige_all(struct policy_file *file) { oblige(file, oblige_each); }

static const unsigned everything[6] = {0};

/* Twelve sets of two policies: what one doesn't permit, the other does, with the same two names. A policy more makes 64
 * elements. */
static void pairs(struct policy_file *file, struct shape *shape, unsigned first, unsigned second)
{
    unsigned targets[2][6] = {{first}, {second}}, number = 0;
    char name[MOST_NAME_BYTES + 1];

    even_space(file, shape, 'A', 3, 16, 0);
    numbered(file, shape, 'S', 0, number++, "deny-overrides", everything);
    for (unsigned i = 0; i < 12; i++) {
        snprintf(name, sizeof name, "log-%u", i / 2); /* every second set has the names of the one before */
        numbered(file, shape, 'S', 1, number++, algorithms[1 + i % 2], everything);
        for (unsigned j = 0; j < 2; j++) {
            numbered(file, shape, 'P', 2, number++, algorithms[i % 3], everything);
            obligation(file, name, "permit");
            obligation(file, "lower-speed", "permit");
            numbered(file, shape, 'R', 3, number++, "permit", targets[j]);
        }
    }
    numbered(file, shape, 'P', 1, number++, "first-applicable", everything);
    obligation(file, "log-5", "permit");
    numbered(file, shape, 'R', 2, number++, "permit", targets[0]);
    numbered(file, shape, 'R', 2, number++, "permit", everything);
}

/* Each first rule is needed where the first attribute has its last but one value, each second where it has the last. */
void obliged_late(struct policy_file *file, struct shape *shape) { pairs(file, shape, 0x7fff, 0xbfff); }

/* No request needs the first rule of any set, and each is tried on nearly all. */
void obliged_alike(struct policy_file *file, struct shape *shape) { pairs(file, shape, 0x7fff, 0); }

/* A policy of narrow rules, each with one request of every 64; then one that gives the same names but where the first
 * attribute has its last value, and one that gives none. So a narrow rule is needed at late requests alone. Needless ones
 * stand before them: each permits a part of what a narrow rule does. */
static void narrow(struct policy_file *file, struct shape *shape, unsigned needless)
{
    unsigned not_last[6] = {0x7fff}, number = 0;

    even_space(file, shape, 'A', 3, 16, 0);
    numbered(file, shape, 'S', 0, number++, "first-applicable", everything);
    numbered(file, shape, 'P', 1, number++, "permit-overrides", everything);
    oblige_alike(file);
    for (unsigned i = 0; i < 58; i++) {
        unsigned of_64 = i < needless ? i + needless : i, target[6] = {0, 0x1111u << of_64 / 16, 1u << of_64 % 16};
        if (i < needless)
            target[0] = 1u << i % 14;
        numbered(file, shape, 'R', 2, number++, "permit", target);
    }
    numbered(file, shape, 'P', 1, number++, "first-applicable", everything);
    oblige_alike(file);
    numbered(file, shape, 'R', 2, number++, "permit", not_last);
    numbered(file, shape, 'P', 1, number++, "deny-overrides", everything);
    numbered(file, shape, 'R', 2, number++, "permit", everything);
}

/* No rule is needless, and the narrow ones are tried on nearly all requests. */
void obliged_narrow(struct policy_file *file, struct shape *shape) { narrow(file, shape, 0); }

/* Half are needless: before the next of them is found, the other half is tried. */
void obliged_behind(struct policy_file *file, struct shape *shape) { narrow(file, shape, 29); }
