/* choosing_sequences.c - runs sequences of random calls with choosing and report among them, and sees to it that
 * everything which can occur did. */
#include "choosing_sequences.h"

#include "all_draws.h"
#include "choosing_calls.h"
#include "occurrences.h"

#define COUNT_OF(list) (sizeof(list) / sizeof(list)[0])

enum { SEQUENCES_EACH = 80, COMPARED_EVERY = 16, ALL_DRAWS_EVERY = 20 };

static const struct waters waters[] = {
    {"few reports a minute", 1, 3, 12, 200, 8},
    {"many reports a minute", 20, 30, 12, 200, 12},
    {"many reports a minute, few stations", 25, 30, 3, 200, 12},
    {"any rate", 1, 30, 40, 200, 8},
};

static struct choosing_run run = {
    .random = {65536},
    .counted = {.name = "after each call every tally is the count of the slots, and the sum is 20,250"},
    .planned = {.name = "after each call own marks lie in the plan's windows, one at most in each, at the distances of "
                        "demand 3"},
    .unchanged = {.name = "a refusal or a report changes nothing"},
    .numbered = {.name = "every number is the slow model's"},
    .answered = {.name = "every answer is the slow model's"},
    .windows = {.name = "every slot of a window is what the slow model says, and so are the candidates"},
    .in_full = {.name = "every holder and every record are the slow model's (each check 20,250 slot times)"},
};
static struct check all_draws = {.name = "all draws of windows that such calls lead to"};

/* ---- sequences ---- */

static bool has_own_mark(uint32_t k)
{
    size_t distance;
    const struct book *book = &run.lent.book;
    return second_first_own(book, second_window_meant(book, k), second_window_slots(book->channel.plan), &distance);
}

/* The first window of the plan that has no own mark but a candidate. */
static void try_all_draws(void)
{
    static struct window window;
    uint32_t rate = model_has_plan(&run.model) ? run.model.plan.rate : 0;
    for (uint32_t k = 0; k < rate; k++) {
        second_window(&run.lent.book, k, 3, &window);
        if (!has_own_mark(k) && window.candidates > 0) {
            run.lent.book.slot_count = SECOND_SLOTS;
            check_all_draws(&all_draws, &run.lent, k, 3);
            return;
        }
    }
}

static void run_sequence(const struct waters *here)
{
    unsigned long end = run.calls + here->calls, compared = run.calls;
    run.waters = here;
    choosing_run_new(&run);
    while (run.calls < end) {
        choosing_run_call(&run);
        if (run.calls >= compared + COMPARED_EVERY || run.calls >= end) {
            choosing_run_compare(&run);
            compared = run.calls;
        }
    }
}

static void run_sequences(struct report *report, const struct waters *here)
{
    unsigned long calls_before = run.calls;
    for (size_t i = 0; i < SEQUENCES_EACH; i++) {
        run_sequence(here);
        if (i % ALL_DRAWS_EVERY == 0) {
            try_all_draws();
        }
    }
    struct text line = {.len = 0};
    text_add(&line, "%s: ", here->name);
    text_add_count(&line, SEQUENCES_EACH);
    text_add(&line, " sequences, ");
    text_add_count(&line, run.calls - calls_before);
    text_add(&line, " calls");
    report_line(report, run.calls > calls_before, &line);
}

/* ---- what has to occur ---- */

static const struct call_numbers call_numbers[CHOOSING_CALLS] = {
    [CALLED_HEAR] = {"hear", {0, 20}, 2},
    [CALLED_PASS] = {"pass", {0, 20}, 2},
    [CALLED_PLAN] = {"plan", {0, 20, 30}, 3},
    [CALLED_OWN] = {"own", {0, 21, 30}, 3},
    [CALLED_CHOOSE] = {"choose", {0, 20, 31, 30, 32, 33, 34}, 7},
    [CALLED_REPORT] = {"report", {0, 20, 31, 30, 36}, 5},
};

static void report_occurrences(struct report *report)
{
    for (size_t call = 0; call < CHOOSING_CALLS; call++) {
        report_call_numbers(report, &call_numbers[call], run.numbers[call]);
    }
    report_each(report, "candidates of choices (5: and more)", run.candidates, 1, COUNTED_CANDIDATES);
    report_each(report, "time-outs chosen", run.chosen_time_outs, 3, COUNTED_TIME_OUTS);
    report_each(report, "time-outs reported", run.reported_time_outs, 0, COUNTED_TIME_OUTS);
    for (size_t i = 0; i < CHOOSING_OCCURRENCES; i++) {
        report_occurrence(report, choosing_occurrence_names[i], run.occurred[i]);
    }
}

void choosing_sequences(struct report *report)
{
    const struct check *const checks[] = {&run.counted,  &run.planned, &run.unchanged, &run.numbered,
                                          &run.answered, &run.windows, &run.in_full,   &all_draws};
    for (size_t i = 0; i < COUNT_OF(waters); i++) {
        run_sequences(report, &waters[i]);
    }
    for (size_t i = 0; i < COUNT_OF(checks); i++) {
        check_report(checks[i], report);
    }
    report_occurrences(report);
}
