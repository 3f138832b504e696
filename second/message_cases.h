/* message_cases.h - the stream of cases on which both message programs run: always the same, by group. */
#ifndef SECOND_MESSAGE_CASES_H
#define SECOND_MESSAGE_CASES_H

#include "call.h"

enum message_group {
    MESSAGES_VECTORS,
    MESSAGES_MARKED,
    MESSAGES_RANDOM,
    MESSAGES_SINGLE_BITS,
    MESSAGES_IDS,
    MESSAGES_ONE_FIELD,
    MESSAGES_SEVERAL_FIELDS,
    MESSAGES_PAIRS,
    MESSAGES_BORDERS,
    MESSAGE_GROUPS
};

extern const char *const message_group_names[MESSAGE_GROUPS];

/* Makes a message one of this id, 0 to 63. */
void put_id(uint8_t *message, size_t id);

/* All groups except the vectors. */
void message_cases_run(const struct case_sink *sink);

/* The vectors. False where their file, or a line of it, cannot be read. */
bool message_cases_run_vectors(const char *directory, const struct case_sink *sink);

#endif
