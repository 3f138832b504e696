/* book_sequences.h - sequences of random calls from a new book, checked after each call. */
#ifndef SECOND_BOOK_SEQUENCES_H
#define SECOND_BOOK_SEQUENCES_H

#include "report.h"

void book_sequences(struct report *report);

#endif
