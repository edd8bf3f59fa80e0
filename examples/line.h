/* Document 01's line of a run call: number, steps and states, then the record. */
#ifndef LINE_H
#define LINE_H

#include <inttypes.h>
#include <stdio.h>

#include "lh5801.h"

static void print_line(const uint64_t words[LH5801_WORDS])
{
    int i;

    printf("%" PRIu64 " %" PRIu64 " %" PRIu64, words[LH5801_NUMBER], words[LH5801_STEPS],
           words[LH5801_STATES]);
    printf(" %02" PRIX64 " %02" PRIX64, words[LH5801_A], words[LH5801_T]);
    for (i = LH5801_X; i <= LH5801_P; i++)
        printf(" %04" PRIX64, words[i]);
    printf(" %03" PRIX64 " %03" PRIX64, words[LH5801_TM], words[LH5801_FLAGS]);
    printf(" %" PRIu64 " %" PRIu64 " %" PRIu64 "\n", words[LH5801_TIMER], words[LH5801_PREVIOUS],
           words[LH5801_TICKS]);
}

#endif
