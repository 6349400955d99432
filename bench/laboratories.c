/* Laboratories: five roles, six actions, eight nests. A badge carries one role, or several. */
#include "file_lines.h"

#include <string.h>

static const char *const actions[] = {"jog", "teach", "run", "grip", "unlock", "calibrate"};

static void laboratory(struct policy_file *file, struct shape *shape, char letter)
{
    static const char *const roles[] = {"tech", "lead", "service", "student", "guest"};
    static const char *const nests[] = {"rack-1", "rack-2", "rack-3", "reader", "washer", "shaker", "cooler", "waste"};

    memset(shape, 0, sizeof *shape);
    attribute(file, shape, letter, "role", roles, 5);
    attribute(file, shape, 'A', "action", actions, 6);
    attribute(file, shape, 'A', "nest", nests, 8);
}

enum { TECH = 1, LEAD = 2, SERVICE = 4, STUDENT = 8, GUEST = 16, JOG = 1, TEACH = 2, RUN = 4, GRIP = 8, UNLOCK = 16,
       CALIBRATE = 32, RACKS = 7, READER = 8, WASHER = 16, SHAKER = 32, COOLER = 64, WASTE = 128,
       SLOW = 1, FAST = 2 };

struct laboratory_element { char kind; uint8_t depth; const char *name, *word; unsigned targets[6]; };

static const struct laboratory_element small[] = {
    {'S', 0, "arm", "first-applicable", {0}},
    {'P', 1, "locked-nests", "deny-overrides", {0, 0, WASTE | COOLER}},
    {'R', 2, "no-waste", "deny", {STUDENT | GUEST, 0, WASTE}},
    {'R', 2, "cooler-teach", "deny", {0, TEACH | CALIBRATE, COOLER}},
    {'S', 1, "people", "only-one-applicable", {0}},
    {'P', 2, "staff", "permit-overrides", {TECH | LEAD | SERVICE, 0, 0}},
    {'R', 3, "staff-moves", "permit", {0, JOG | RUN | GRIP, 0}},
    {'R', 3, "lead-all", "permit", {LEAD, 0, 0}},
    {'R', 3, "staff-rest", "deny", {0, 0, 0}},
    {'P', 2, "learners", "first-applicable", {STUDENT | GUEST, 0, 0}},
    {'R', 3, "guest-jog", "permit", {0, JOG, RACKS}},
    {'R', 3, "guest-rest", "deny", {0, 0, 0}},
};

static const struct laboratory_element common[] = {
    {'S', 0, "arm", "", {0}},
    {'P', 1, "emergency", "deny-overrides", {0, GRIP | UNLOCK | CALIBRATE, 0}},
    {'R', 2, "no-guest-unlock", "deny", {GUEST | STUDENT, GRIP | UNLOCK, 0}},
    {'R', 2, "no-calibration", "deny", {TECH | STUDENT | GUEST, CALIBRATE, 0}},
    {'R', 2, "service-unlock", "permit", {SERVICE | LEAD, UNLOCK | CALIBRATE, 0}},
    {'S', 1, "motion", "permit-overrides", {0, JOG | RUN | TEACH, 0}},
    {'P', 2, "jogging", "first-applicable", {0, JOG, 0}},
    {'R', 3, "jog-racks", "permit", {TECH | LEAD | STUDENT, 0, RACKS}},
    {'R', 3, "jog-washer", "deny", {STUDENT, 0, WASHER | SHAKER}},
    {'R', 3, "jog-lead", "permit", {LEAD, JOG, 0}},
    {'R', 3, "jog-rest", "deny", {0, 0, 0}},
    {'P', 2, "teaching", "deny-overrides", {0, TEACH, 0}},
    {'R', 3, "teach-lead", "permit", {LEAD | SERVICE, 0, 0}},
    {'R', 3, "teach-cooler", "deny", {0, 0, COOLER}},
    {'P', 2, "running", "permit-overrides", {0, RUN, 0}},
    {'R', 3, "run-tech", "permit", {TECH | LEAD, 0, 0}},
    {'R', 3, "run-student", "permit", {STUDENT, RUN, RACKS | READER}},
    {'R', 3, "run-guest", "deny", {GUEST, 0, 0}},
    {'S', 1, "gripping", "only-one-applicable", {0, GRIP, 0}},
    {'P', 2, "grip-racks", "first-applicable", {0, 0, RACKS | READER}},
    {'R', 3, "grip-staff", "permit", {TECH | LEAD | SERVICE, 0, 0}},
    {'R', 3, "grip-lead", "permit", {LEAD, GRIP, RACKS}},
    {'P', 2, "grip-wet", "deny-overrides", {0, 0, READER | WASHER | SHAKER}},
    {'R', 3, "grip-wet-lead", "permit", {LEAD, 0, 0}},
    {'R', 3, "grip-wet-guest", "deny", {GUEST | STUDENT, 0, 0}},
};

static const struct laboratory_element maker[] = {
    {'P', 0, "maker", "first-applicable", {0}},
    {'R', 1, "no-fast-teaching", "deny", {TEACH | CALIBRATE, FAST}},
    {'R', 1, "moves", "permit", {JOG | RUN, 0}},
    {'R', 1, "slow-rest", "permit", {0, SLOW}},
};

static void lay_out(struct policy_file *file, const struct shape *shape, const struct laboratory_element *elements,
                    size_t count, const char *first_word)
{
    for (size_t i = 0; i < count; i++)
        element(file, shape, elements[i].kind, elements[i].depth, elements[i].name,
                i == 0 ? first_word : elements[i].word, elements[i].targets);
}

void small_laboratory(struct policy_file *file, struct shape *shape, char roles)
{
    laboratory(file, shape, roles);
    lay_out(file, shape, small, sizeof small / sizeof *small, small[0].word);
}

void common_laboratory(struct policy_file *file, struct shape *shape, char roles, const char *algorithm)
{
    laboratory(file, shape, roles);
    lay_out(file, shape, common, sizeof common / sizeof *common, algorithm);
}

void maker_policy(struct policy_file *file, struct shape *shape)
{
    static const char *const speeds[] = {"slow", "fast"};

    memset(shape, 0, sizeof *shape);
    attribute(file, shape, 'A', "action", actions, 6);
    attribute(file, shape, 'A', "speed", speeds, 2);
    lay_out(file, shape, maker, sizeof maker / sizeof *maker, maker[0].word);
}

void spelled_laboratory(struct policy_file *file, struct shape *shape)
{
    unsigned field = 0;
    uint8_t letter = 'A';

    common_laboratory(file, shape, 'A', "first-applicable");
    for (size_t i = 1; i < file->length; i++) {
        uint8_t before = file->bytes[i - 1], *byte = &file->bytes[i];
        field = before == '\n' ? 0 : field + (before == '\t');
        letter = before == '\n' ? *byte : letter;
        if ((before == '\t' || before == ',') && *byte >= 'a' && (field != 3 || letter == 'A'))
            *byte -= 'a' - 'A';
    }
}
