/* journal.h - the run of an event log by the second program: the product is compared with it.
 * It is written from the documents (document 01, "Event log"), not from the product. */
#ifndef SECOND_JOURNAL_H
#define SECOND_JOURNAL_H

#include "book.h"
#include "log_record.h"

/* A book with its lists, and where its lines go. A copy needs lists of its own, so a journal is not copied. */
struct journal {
    uint16_t slots[SECOND_SLOTS];
    struct station records[SECOND_RECORDS];
    struct book book;
    struct line_sink sink;
};

/* Begins with a new book. */
void journal_new(struct journal *journal, struct line_sink sink);

/* Runs a log to its end, or to where it ends inside a record, and gives the sum. */
void journal_run(struct journal *journal, const struct log_reader *reader);

/* ---- the parts of a run ---- */

/* The two events of a record in order: its passes, and then its call, with the line of that. */
void journal_pass(struct journal *journal, const struct log_record *record);
void journal_call(struct journal *journal, const struct log_record *record);

/* The line of a number given back. */
void journal_refused(struct journal *journal, uint32_t number);

/* The last line. */
void journal_sum(struct journal *journal);

#endif
