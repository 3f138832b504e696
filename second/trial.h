/* trial.h - one call on guarded buffers, and what it left there. */
#ifndef SECOND_TRIAL_H
#define SECOND_TRIAL_H

#include "call.h"
#include "report.h"

enum { GUARD = 64, AREA_MAX = GUARD + CASE_LENGTH_MAX * sizeof(int32_t) + GUARD };

struct trial {
    uint32_t number;
    uint32_t count;
    bool given_changed;
    int32_t area[AREA_MAX / sizeof(int32_t)]; /* guard bytes, the lent bytes or numbers, guard bytes */
};

/* Fills the area with a pattern and makes the call. */
void trial_run(struct trial *trial, const struct program *program, const struct call_case *one);

/* What every call has to keep and this one did not, in words; NULL where it kept everything: the number that the case
 * expects, nothing touched outside the lent buffer or by a refusal, what lies past the answer left alone. */
const char *trial_fault(const struct trial *trial, const struct call_case *one);

/* True where number, count and the whole lent buffer are the same. */
bool trial_same(const struct trial *left, const struct trial *right, const struct call_case *one);

const void *trial_answer(const struct trial *trial);

void text_add_case(struct text *text, const struct call_case *one);
void text_add_trial(struct text *text, const struct trial *trial, const struct call_case *one);

#endif
