/* choosing_sequences.h - sequences of random calls from a new book with choosing and report among them. */
#ifndef SECOND_CHOOSING_SEQUENCES_H
#define SECOND_CHOOSING_SEQUENCES_H

#include "report.h"

void choosing_sequences(struct report *report);

#endif
