/* book_sequences.c - runs sequences of random calls and sees to it that everything which can occur did. */
#include "book_sequences.h"

#include "book_calls.h"
#include "occurrences.h"

#define COUNT_OF(list) (sizeof(list) / sizeof(list)[0])

enum { SEQUENCES_EACH = 500, SEQUENCES_CROWDED = 40, COMPARED_EVERY = 16 };

static const struct traffic traffics[] = {
    {"few stations", 4, 50, 200, 30, false, false, false},
    {"many stations", 60, 50, 200, 5, false, false, false},
    {"reports to the end of the book", 8, 50, 200, 3000, true, false, false},
    {"long passes", 20, 50, 200, 20000, false, true, false},
};

/* More stations than records, heard until no record is left. */
static const struct traffic crowded = {"more stations than records", MODEL_STATIONS, 900, 1400, 3, false, false, true};

static struct book_run run = {
    .random = {2250},
    .counted = {.name = "after each call every tally is the count of the slots, and the sum is 20,250"},
    .unchanged = {.name = "a refusal changes nothing"},
    .numbered = {.name = "number, source, MARKS and record are the slow model's"},
    .briefly = {.name = "after each call now, plan and ship are the slow model's"},
    .in_full = {.name = "every holder and every record are the slow model's (each check 20,250 slot times)"},
};

/* ---- sequences ---- */

static void run_sequence(const struct traffic *traffic)
{
    unsigned long end = run.calls + random_from_to(&run.random, traffic->calls_min, traffic->calls_max);
    run.traffic = traffic;
    book_run_new(&run);
    while (run.calls < end) {
        book_run_call(&run);
        if (run.calls % COMPARED_EVERY == 0 || run.calls == end) {
            book_run_compare(&run);
        }
    }
}

static void run_sequences(struct report *report, const struct traffic *traffic, size_t sequences)
{
    unsigned long calls_before = run.calls;
    for (size_t i = 0; i < sequences; i++) {
        run_sequence(traffic);
    }
    struct text line = {.len = 0};
    text_add(&line, "%s: ", traffic->name);
    text_add_count(&line, sequences);
    text_add(&line, " sequences, ");
    text_add_count(&line, run.calls - calls_before);
    text_add(&line, " calls");
    report_line(report, run.calls > calls_before, &line);
}

/* ---- what has to occur ---- */

static const struct call_numbers call_numbers[BOOK_CALLS] = {
    [CALL_HEAR] = {"hear", {0, 17, 18, 20, 21, 22, 23}, 7},
    [CALL_HEAR_SPOKEN] = {"hear a message already read", {0, 20, 21, 22, 23, 35}, 6},
    [CALL_MARK] = {"mark", {0, 20, 35}, 3},
    [CALL_PASS] = {"pass", {0, 20}, 2},
    [CALL_PLAN] = {"plan", {0, 20, 30}, 3},
    [CALL_OWN] = {"own", {0, 21, 30}, 3},
};

static void report_occurrences(struct report *report)
{
    for (size_t call = 0; call < BOOK_CALLS; call++) {
        report_call_numbers(report, &call_numbers[call], run.numbers[call]);
    }
    report_each(report, "ids heard", run.ids, ID_FIRST, IDS_END);
    report_each(report, "time-outs heard", run.time_outs, 0, TIME_OUTS);
    report_each(report, "slots codes heard", run.slots_codes, 0, SLOTS_CODES);
    report_each(report, "keep heard", run.keeps, 0, KEEPS);
    for (size_t i = 0; i < OCCURRENCES; i++) {
        report_occurrence(report, occurrence_names[i], run.model.occurred[i]);
    }
}

void book_sequences(struct report *report)
{
    const struct check *const checks[] = {&run.counted, &run.unchanged, &run.numbered, &run.briefly, &run.in_full};
    for (size_t i = 0; i < COUNT_OF(traffics); i++) {
        run_sequences(report, &traffics[i], SEQUENCES_EACH);
    }
    run_sequences(report, &crowded, SEQUENCES_CROWDED);
    for (size_t i = 0; i < COUNT_OF(checks); i++) {
        check_report(checks[i], report);
    }
    report_occurrences(report);
}
