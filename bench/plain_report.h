/* All that a report tells, for plain_look.c and plain_report.c alone. */
#ifndef PLAIN_REPORT_H
#define PLAIN_REPORT_H

#include "plain_space.h"

struct report {
    struct trimming trimming;
    struct gives decided[BLOCKS];
    uint64_t applying[SPACE];
    unsigned segments;
    uint16_t first[SPACE], count[SPACE];     /* of each segment */
    uint64_t conflicting[ELEMENTS];          /* later siblings that an element conflicts with */
    uint16_t conflict[ELEMENTS][ELEMENTS];   /* the lowest request that shows it */
    uint16_t need[ELEMENTS];                 /* of each rule kept: the first request that needs it */
    uint64_t label_bits[5];                  /* elements by the bits of their label's length */
};

/* Before any of it is put into words. */
void plain_look(struct report *report, const struct policy *policy);

#endif
