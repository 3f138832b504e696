/* logs.h - random event logs, always the same for the same seed. They know nothing of the product, so that both
 * programs can be run on them. While a log is made the second program runs it, so that what is seldom does occur. */
#ifndef SECOND_LOGS_H
#define SECOND_LOGS_H

#include "log_record.h"
#include "random.h"

/* Some logs have a few records as long as a length can say. */
#define SECOND_LOG_ROOM 600000

/* A log as it grows; what does not fit is left out. */
struct log {
    uint8_t bytes[SECOND_LOG_ROOM];
    size_t len;
};

void log_new(struct log *log);
void log_add(struct log *log, const uint8_t *bytes, size_t len);
void log_add_record(struct log *log, const struct log_record *record);

enum log_kind {
    LOG_SPARSE,      /* few stations, much time */
    LOG_DENSE,       /* many stations, little time */
    LOG_CROWDED,     /* windows full of marks, or a register full of stations */
    LOG_ADVERSARIAL, /* much that is refused, and limits of everything */
    LOG_BYTES,       /* arbitrary bytes */
    LOG_DAMAGED,     /* a log of the others with bytes changed, put in or taken out, or cut */
    LOG_KINDS
};

extern const char *const log_kind_names[LOG_KINDS];

void log_make(struct log *log, uint64_t seed, enum log_kind kind);

#endif
