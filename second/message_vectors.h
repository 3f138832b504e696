/* message_vectors.h - the published vectors of messages-1-4.txt, and what they say about an answer. */
#ifndef SECOND_MESSAGE_VECTORS_H
#define SECOND_MESSAGE_VECTORS_H

#include "message.h"

struct message_vector {
    uint8_t message[SECOND_MESSAGE_BYTES];
    int32_t fields[SECOND_FIELDS_MAX];
    size_t count;
    int32_t state; /* its 19 bits as one number */
};

/* The vector of a line: bytes in hex : fields, and the state as one number : the state taken apart, its parts named.
 * False where the line cannot be read, or names what does not belong to its id or time-out. */
bool parse_message_line(const char *line, struct message_vector *vector);

/* What a written message, or the numbers of one read, has other than the vector says, in words; NULL where it has
 * everything. */
const char *written_message_fault(const struct message_vector *vector, const uint8_t *message);
const char *read_message_fault(const struct message_vector *vector, const int32_t *fields, size_t count);

#endif
