/* book_by_hand.h - cases of the slot book that were worked out by hand, sentence by sentence of document 01. */
#ifndef SECOND_BOOK_BY_HAND_H
#define SECOND_BOOK_BY_HAND_H

#include "report.h"

/* A new book, and the calls pass, plan and own. */
void calls_by_hand(struct report *report);

/* Hearing: the times that are marked and freed, and the records. */
void marks_by_hand(struct report *report);
void records_by_hand(struct report *report);

/* What a report announces, and in what order it is freed and marked. */
void rows_by_hand(struct report *report);

/* Each refusal at its limit and past it, and which comes first. */
void refusals_by_hand(struct report *report);
void order_by_hand(struct report *report);

/* Books that no row of calls leads to: worked out by hand, and made of random numbers. */
void strange_books_by_hand(struct report *report);
void strange_books_at_random(struct report *report);

#endif
