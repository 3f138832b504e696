/* run.h - cases run on the program under test, alone or beside another that has to answer the same. */
#ifndef SECOND_RUN_H
#define SECOND_RUN_H

#include "call.h"
#include "report.h"
#include "tally.h"
#include "trial.h"

struct run {
    const struct program *tested;
    const struct program *beside; /* NULL where the second program is tested by itself */

    /* What packets, or messages, have to keep beyond what every call has, and this answer did not, in words; NULL where
     * it kept everything. */
    const char *(*own_fault)(const struct run *run, const struct call_case *one);

    /* Takes note of a case without a fault. */
    void (*note)(void *notes, const struct trial *trial, const struct call_case *one);
    void *notes;

    struct group_result *groups;
    struct tally tally;
    struct trial trial;
    struct trial trial_beside;
};

/* Runs one case; the state is the run. To be given to a stream as its sink. */
void run_case(void *state, const struct call_case *one);

#endif
