/* cases.h - the stream of cases on which both packet programs run: always the same, by group. */
#ifndef SECOND_CASES_H
#define SECOND_CASES_H

#include "call.h"

enum case_group {
    CASES_SHORT,
    CASES_RANDOM,
    CASES_FLIPPED,
    CASES_INSERTED,
    CASES_DROPPED,
    CASES_FLAG,
    CASES_NO_BIT,
    CASES_CUT,
    CASES_LENGTHS,
    CASES_BORDERS,
    CASES_SIX_ONES,
    CASES_FIVE_ONES,
    CASES_TOO_FEW,
    CASES_NOT_WHOLE,
    CASES_TOO_MANY,
    CASES_CHECK,
    CASES_ORDER,
    CASES_LONGEST,
    CASES_VECTOR_PACKETS,
    CASES_VECTOR_CHECKS,
    CASE_GROUPS
};

extern const char *const case_group_names[CASE_GROUPS];

/* All groups except the two of vectors. The groups come mixed: a packet is damaged in every way before the next. */
void cases_run(const struct case_sink *sink);

/* The two groups of vectors. False where a file, or a line of it, cannot be read. */
bool cases_run_vectors(const char *directory, const struct case_sink *sink);

#endif
