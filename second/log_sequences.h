/* log_sequences.h - random event logs are run, and everything that can occur in them has to. */
#ifndef SECOND_LOG_SEQUENCES_H
#define SECOND_LOG_SEQUENCES_H

#include "report.h"

void log_sequences(struct report *report);

#endif
