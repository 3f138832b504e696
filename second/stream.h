/* stream.h - the stream of cases under way: where the cases go, and the random numbers that they are made with. */
#ifndef SECOND_STREAM_H
#define SECOND_STREAM_H

#include "call.h"
#include "random.h"

struct stream {
    const struct case_sink *sink;
    struct random random;
};

/* The last length of each is that of the buffer lent. */
void give_write(struct stream *stream, unsigned group, uint32_t expected, const uint8_t *payload, size_t payload_len,
                size_t bits_len);
void give_read(struct stream *stream, unsigned group, uint32_t expected, const uint8_t *bits, size_t bits_len,
               size_t payload_len);
void give_message_write(struct stream *stream, unsigned group, uint32_t expected, const int32_t *fields,
                        size_t fields_len, size_t message_len);
void give_message_read(struct stream *stream, unsigned group, uint32_t expected, const uint8_t *message,
                       size_t message_len, size_t fields_len);

/* A packet that only its bits can get refused. */
void give_packet(struct stream *stream, unsigned group, uint32_t expected, const uint8_t *bits, size_t bits_len);

/* The next length to be tried: all up to 300, then some that would pass for short ones if cut down to 16 bits, the one
 * that would pass for 21 among them. */
size_t next_length(size_t length);

#endif
