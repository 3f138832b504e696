/* log_by_hand.h - tests of the event log whose lines were worked out by hand from document 01. */
#ifndef SECOND_LOG_BY_HAND_H
#define SECOND_LOG_BY_HAND_H

#include "report.h"

/* Lengths, kinds, skipped and cut records, passes. */
void log_records_by_hand(struct report *report);

/* The line of each call, each number that a call in a log can give, and the sum. */
void log_lines_by_hand(struct report *report);

/* A log cut at every place, and handed out in parts of every size. */
void log_cuts_by_hand(struct report *report);

/* Logs as text. */
void log_text_by_hand(struct report *report);

#endif
