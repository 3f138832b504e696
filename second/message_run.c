/* message_run.c - runs the stream of message cases and sees to it that everything which can occur did. */
#include "message_run.h"

#include "message.h"
#include "message_cases.h"
#include "message_fields.h"
#include "message_vectors.h"
#include "occurrences.h"
#include "run.h"

#include <string.h>

enum { SLOTS_CODES = 8 };

static const struct program second = {
    .name = "second",
    .message_write = second_message_write,
    .message_read = second_message_read,
};

/* ---- what messages have to keep ---- */

static bool written_reads_back(const struct program *program, const uint8_t *message, const int32_t *fields)
{
    int32_t back[SECOND_FIELDS_MAX];
    uint32_t count = 0;
    uint32_t number = program->message_read(message, SECOND_MESSAGE_BYTES, back, SECOND_FIELDS_MAX, &count);
    return number == DONE && count >= SECOND_FIELDS_MIN && count <= SECOND_FIELDS_MAX
        && memcmp(back, fields, count * sizeof back[0]) == 0;
}

static bool read_writes_back(const struct program *program, const int32_t *fields, const uint8_t *message)
{
    uint8_t back[SECOND_MESSAGE_BYTES];
    uint32_t number = program->message_write(fields, SECOND_FIELDS_MAX, back, sizeof back);
    return number == DONE && memcmp(back, message, sizeof back) == 0;
}

/* What was written must read as the same numbers, and what was read must be written to the same bytes. */
static const char *way_back_fault(const struct run *run, const struct call_case *one)
{
    const void *answer = trial_answer(&run->trial);
    bool same = case_writes(one) ? written_reads_back(run->tested, answer, one->given)
                                 : read_writes_back(run->tested, answer, one->given);
    return same ? NULL : "the way back leads elsewhere";
}

static const char *published_fault(const struct run *run, const struct call_case *one)
{
    const void *answer = trial_answer(&run->trial);
    return case_writes(one) ? written_message_fault(one->published, answer)
                            : read_message_fault(one->published, answer, run->trial.count);
}

static const char *message_fault(const struct run *run, const struct call_case *one)
{
    const char *fault = run->trial.number == DONE ? way_back_fault(run, one) : NULL;
    if (fault == NULL && one->published != NULL) {
        fault = published_fault(run, one);
    }
    return fault;
}

/* ---- what has to occur ---- */

static bool is_known(bool writing, unsigned number)
{
    return number == DONE || number == REFUSAL_ROOM || number == REFUSAL_MESSAGE_LENGTH || number == REFUSAL_ID
        || (writing && number == REFUSAL_WIDTH);
}

/* How many messages had each id, each time-out and each slots code. */
struct outcomes {
    unsigned long ids[IDS_END];
    unsigned long time_outs[TIME_OUTS];
    unsigned long slots_codes[SLOTS_CODES];
};

struct both_outcomes {
    struct outcomes written;
    struct outcomes read;
};

static void note_outcome(void *notes, const struct trial *trial, const struct call_case *one)
{
    struct both_outcomes *both = notes;
    struct outcomes *outcomes = case_writes(one) ? &both->written : &both->read;
    const int32_t *fields = case_writes(one) ? one->given : trial_answer(trial);
    if (trial->number != DONE) {
        return;
    }
    const int32_t *state = fields + second_state_place(fields[0]);
    outcomes->ids[fields[0]]++;
    if (fields[0] == ID_INCREMENTAL) {
        outcomes->slots_codes[state[2]]++;
    } else {
        outcomes->time_outs[state[1]]++;
    }
}

static void report_outcomes(struct report *report, const struct both_outcomes *both)
{
    report_each(report, "ids written", both->written.ids, ID_FIRST, IDS_END);
    report_each(report, "ids read", both->read.ids, ID_FIRST, IDS_END);
    report_each(report, "time-outs written", both->written.time_outs, 0, TIME_OUTS);
    report_each(report, "time-outs read", both->read.time_outs, 0, TIME_OUTS);
    report_each(report, "slots codes written", both->written.slots_codes, 0, SLOTS_CODES);
    report_each(report, "slots codes read", both->read.slots_codes, 0, SLOTS_CODES);
}

void message_run(struct report *report, const struct program *product, const char *directory)
{
    static struct group_result groups[MESSAGE_GROUPS];
    static struct both_outcomes both;
    static struct run run = {.own_fault = message_fault, .note = note_outcome, .notes = &both, .groups = groups};
    const struct case_sink sink = {run_case, &run};
    struct text line = {.len = 0};
    run.tested = product != NULL ? product : &second;
    run.beside = product != NULL ? &second : NULL;
    message_cases_run(&sink);
    bool vectors_read = message_cases_run_vectors(directory, &sink);
    report_groups(report, groups, message_group_names, MESSAGE_GROUPS);
    text_add(&line, "every line of the vector file was read");
    report_line(report, vectors_read, &line);
    tally_report(&run.tally, report, is_known);
    report_outcomes(report, &both);
}
