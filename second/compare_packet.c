/* compare_packet.c - compares the product's packets with the second program's on the whole stream of cases.
 * Usage: compare_packet VECTORS_DIR */
#include "../include/quaysickle.h"
#include "cases.h"
#include "packet.h"
#include "report.h"
#include "run.h"
#include "unstuffed.h"
#include "vectors.h"

#include <stdio.h>

_Static_assert(QS_PAYLOAD_MAX == SECOND_PAYLOAD_MAX, "the header's payload limit is not the paper's");
_Static_assert(QS_PACKET_MAX == SECOND_PACKET_MAX, "the header's packet limit is not the paper's");

static const struct program product = {
    .name = "product",
    .packet_write = qs_packet_write,
    .packet_read = qs_packet_read,
};

static const struct program second = {
    .name = "second",
    .packet_write = second_packet_write,
    .packet_read = second_packet_read,
};

static const char *packet_fault(const struct run *run, const struct call_case *one)
{
    if (one->published == NULL) {
        return NULL;
    }
    return vector_fault(one->published, trial_answer(&run->trial), run->trial.count);
}

/* The kinds of packet that have to occur. */
struct kinds {
    unsigned long longest;
    unsigned long stuffed_at_end;
};

static void note_kind(void *notes, const struct trial *trial, const struct call_case *one)
{
    struct kinds *kinds = notes;
    const uint8_t *bits = case_writes(one) ? trial_answer(trial) : one->given;
    size_t count = case_writes(one) ? trial->count : one->given_len;
    if (trial->number == DONE) {
        kinds->longest += count == SECOND_PACKET_MAX;
        kinds->stuffed_at_end += ends_with_stuffed_zero(bits, count);
    }
}

static bool is_known(bool writing, unsigned number)
{
    if (writing) {
        return number == DONE || number == REFUSAL_LENGTH || number == REFUSAL_ROOM;
    }
    return number == DONE || (number >= REFUSAL_NO_BIT && number <= REFUSAL_CHECK);
}

int main(int argc, char **argv)
{
    static struct group_result groups[CASE_GROUPS];
    static struct kinds kinds;
    static struct run run = {
        .tested = &product,
        .beside = &second,
        .own_fault = packet_fault,
        .note = note_kind,
        .notes = &kinds,
        .groups = groups,
    };
    const struct case_sink sink = {run_case, &run};
    struct report report = {0, 0};
    struct text line = {.len = 0};
    if (argc != 2) {
        fprintf(stderr, "usage: compare_packet VECTORS_DIR\n");
        return 2;
    }
    cases_run(&sink);
    bool vectors_read = cases_run_vectors(argv[1], &sink);
    report_groups(&report, groups, case_group_names, CASE_GROUPS);
    text_add(&line, "every line of the vector files was read");
    report_line(&report, vectors_read, &line);
    tally_report(&run.tally, &report, is_known);
    report_occurrence(&report, "packets of 236 bits", kinds.longest);
    report_occurrence(&report, "packets with a stuffed 0 right before the closing flag", kinds.stuffed_at_end);
    return report_end(&report);
}
