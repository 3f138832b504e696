/* run.c - runs a case, holds it against everything that it has to keep, and counts it. */
#include "run.h"

static const char *case_fault(const struct run *run, const struct call_case *one)
{
    const char *fault = trial_fault(&run->trial, one);
    if (fault == NULL && run->beside != NULL && !trial_same(&run->trial, &run->trial_beside, one)) {
        fault = "the two differ";
    }
    return fault == NULL ? run->own_fault(run, one) : fault;
}

static void describe_case(struct text *words, const struct run *run, const struct call_case *one, const char *fault)
{
    text_add_case(words, one);
    text_add(words, ": %s: %s ", fault, run->tested->name);
    text_add_trial(words, &run->trial, one);
    if (run->beside != NULL) {
        text_add(words, "; %s ", run->beside->name);
        text_add_trial(words, &run->trial_beside, one);
    }
}

void run_case(void *state, const struct call_case *one)
{
    struct run *run = state;
    trial_run(&run->trial, run->tested, one);
    if (run->beside != NULL) {
        trial_run(&run->trial_beside, run->beside, one);
    }
    const char *fault = case_fault(run, one);
    struct text *words = group_count(&run->groups[one->group], case_writes(one), fault == NULL);
    if (words != NULL) {
        describe_case(words, run, one, fault);
    }
    if (fault == NULL) {
        tally_count(&run->tally, case_writes(one), run->trial.number);
        run->note(run->notes, &run->trial, one);
    }
}
