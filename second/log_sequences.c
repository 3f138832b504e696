/* log_sequences.c - runs random event logs of each kind, and sees to it that everything which can occur in one did. */
#include "log_sequences.h"

#include "log_case.h"
#include "log_notes.h"
#include "model_windows.h"
#include "occurrences.h"

#include <stdlib.h>
#include <string.h>

#define COUNT_OF(list) (sizeof(list) / sizeof(list)[0])

enum { LOGS_EACH = 40, PART_MAX = 70 };

static struct log_notes notes;
static struct log here;
static struct written lines, again;
static struct journal journal;

static struct check in_order = {.name = "one line for each record, 40 where a log ends inside one, the sum last and "
                                        "once"};
static struct check total = {.name = "the sum is that of the slots, counted one by one, and its total is 20,250"};
static struct check planned = {.name = "own marks lie in the plan's windows, one at most in each, at the distances of "
                                       "demand 3"};
static struct check stepwise = {.name = "passes and calls one by one give the lines of the run"};
static struct check parts = {.name = "a log handed out in parts gives the same lines"};
static struct check repeated = {.name = "the same seed makes the same log"};
static struct check both_ways = {.name = "a log as text, and the text as a log again: the same bytes"};

/* ---- own marks ---- */

/* The slow model is asked of the slots ahead only, so it needs no more than now and the plan. */
static bool keeps_plan(void)
{
    static struct model model;
    static struct lent lent;
    model.now = journal.book.now;
    model.plan = journal.book.channel.plan;
    memcpy(lent.slots, journal.slots, sizeof journal.slots);
    return model_keeps_plan(&model, &lent, model.now);
}

/* ---- step by step ---- */

/* The number that the last line gives; 0 where the call was not refused. */
static uint32_t last_number(const struct written *written, size_t from)
{
    const char *line = written->chars + from;
    return strncmp(line, "refused ", 8) == 0 ? (uint32_t)strtoul(line + 8, NULL, 10) : DONE;
}

static void step(const struct log_record *record)
{
    size_t from = again.len;
    journal_pass(&journal, record);
    note_before(&notes, &journal, record);
    journal_call(&journal, record);
    uint32_t number = last_number(&again, from);
    note_after(&notes, &journal, record, number);
    if (record->kind == RECORD_CHOOSE && number == DONE) {
        check_that(&planned, keeps_plan(), "after a choice");
    }
}

/* Returns how many lines are to come before the sum. */
static size_t step_through(void)
{
    static struct log_piece piece;
    struct log_buffer buffer = {here.bytes, here.len, SIZE_MAX};
    const struct log_reader reader = log_from_buffer(&buffer);
    enum piece_kind kind;
    size_t pieces = 0;
    journal_new(&journal, lines_to_written(&again));
    written_new(&again);
    for (kind = log_take(&reader, &piece); kind == PIECE_WHOLE; kind = log_take(&reader, &piece)) {
        struct log_record record;
        pieces++;
        if (log_record_read(&piece, &record) == DONE) {
            step(&record);
        } else {
            note_skipped(&notes, &piece);
            journal_refused(&journal, REFUSAL_LOG_RECORD);
        }
    }
    if (kind == PIECE_CUT) {
        pieces++;
        note_cut(&notes, &piece);
        journal_refused(&journal, REFUSAL_LOG_END);
    }
    journal_sum(&journal);
    return pieces;
}

/* ---- lines ---- */

static size_t count_lines(const struct written *written)
{
    size_t count = 0;
    for (size_t i = 0; i < written->len; i++) {
        count += written->chars[i] == '\n';
    }
    return count;
}

static const char *last_line(const struct written *written)
{
    const char *line = written->chars + written->len - 1;
    while (line > written->chars && line[-1] != '\n') {
        line--;
    }
    return line;
}

static void check_order(size_t pieces)
{
    const char *sum = strstr(lines.chars, "sum ");
    const char *cut = strstr(lines.chars, "refused 40\n");
    check_that(&in_order, count_lines(&lines) == pieces + 1, "another number of lines");
    check_that(&in_order, sum != NULL && sum == last_line(&lines), "the sum is not last, or not once");
    check_that(&in_order, cut == NULL || cut + strlen("refused 40\n") == sum, "40 is not the last before the sum");
}

static void check_total(void)
{
    struct text sum = {.len = 0};
    unsigned free = 0, own = 0;
    for (size_t place = 0; place < SECOND_SLOTS; place++) {
        free += journal.slots[place] == HOLDER_NONE;
        own += journal.slots[place] == HOLDER_OWN;
    }
    text_add(&sum, "sum %u %u %u 20250\n", free, own, SECOND_SLOTS - free - own);
    check_that(&total, strcmp(last_line(&lines), sum.chars) == 0, "a sum");
}

/* ---- logs ---- */

static void check_repeated(uint64_t seed, enum log_kind kind)
{
    static struct log same;
    log_make(&same, seed, kind);
    check_that(&repeated, log_same(&here, &same), "a log");
}

static void check_both_ways(void)
{
    static struct log back;
    log_as_text(&here, &again);
    log_new(&back);
    put_text(&back, again.chars);
    check_that(&both_ways, log_same(&here, &back), "a log");
}

static void check_log(uint64_t seed, enum log_kind kind)
{
    log_make(&here, seed, kind);
    run_in_parts(here.bytes, here.len, SIZE_MAX, &lines);
    size_t pieces = step_through();
    check_that(&stepwise, written_same(&lines, &again), "a log");
    check_order(pieces);
    check_total();
    check_that(&planned, keeps_plan(), "at the end of a log");
    run_in_parts(here.bytes, here.len, 1 + (size_t)seed % PART_MAX, &again);
    check_that(&parts, written_same(&lines, &again), "a log");
    check_both_ways();
    check_repeated(seed, kind);
}

static void check_logs(struct report *report, enum log_kind kind)
{
    struct text line = {.len = 0};
    unsigned long bytes = 0, line_count = 0;
    for (uint64_t seed = 1; seed <= LOGS_EACH; seed++) {
        check_log(seed, kind);
        bytes += here.len;
        line_count += count_lines(&lines);
    }
    text_add(&line, "%s: %d logs, ", log_kind_names[kind], LOGS_EACH);
    text_add_count(&line, bytes);
    text_add(&line, " bytes, ");
    text_add_count(&line, line_count);
    text_add(&line, " lines");
    report_line(report, bytes > 0, &line);
}

/* ---- what has to occur ---- */

static const struct call_numbers call_numbers[] = {
    [RECORD_HEAR] = {"hear", {0, 18, 21, 22, 23}, 5},
    [RECORD_CHOOSE] = {"choose", {0, 31, 30, 32, 33, 34}, 6},
    [RECORD_PLAN] = {"plan", {0, 30}, 2},
    [RECORD_OWN] = {"own", {0, 21, 30}, 3},
};

void log_sequences(struct report *report)
{
    const struct check *const checks[] = {&in_order, &total, &planned, &stepwise, &parts, &repeated, &both_ways};
    for (int kind = 0; kind < LOG_KINDS; kind++) {
        check_logs(report, (enum log_kind)kind);
    }
    for (size_t i = 0; i < COUNT_OF(checks); i++) {
        check_report(checks[i], report);
    }
    for (size_t kind = RECORD_HEAR; kind < RECORD_KINDS_END; kind++) {
        report_call_numbers(report, &call_numbers[kind], notes.numbers[kind]);
    }
    report_each(report, "ids heard", notes.ids, ID_FIRST, IDS_END);
    report_each(report, "time-outs heard", notes.time_outs, 0, NOTED_TIME_OUTS);
    report_each(report, "slots codes heard", notes.slots_codes, 0, NOTED_CODES);
    report_each(report, "candidates of choices (5: and more)", notes.candidates, 1, NOTED_CANDIDATES);
    report_each(report, "time-outs chosen", notes.chosen_time_outs, 3, NOTED_TIME_OUTS);
    report_each(report, "marks replaced by choices (4: and more)", notes.replaced, 0, NOTED_REPLACED);
    for (size_t i = 0; i < LOG_OCCURRENCES; i++) {
        report_occurrence(report, log_occurrence_names[i], notes.occurred[i]);
    }
}
