/* stream.c - hands out cases to where the stream goes. */
#include "stream.h"

#include "packet.h"

enum { EVERY_LENGTH_TO = 300 };

static void give(struct stream *stream, const struct call_case *one)
{
    stream->sink->run(stream->sink->state, one);
}

void give_write(struct stream *stream, unsigned group, uint32_t expected, const uint8_t *payload, size_t payload_len,
                size_t bits_len)
{
    give(stream, &(struct call_case){group, PACKET_WRITE, expected, payload, payload_len, bits_len, NULL});
}

void give_read(struct stream *stream, unsigned group, uint32_t expected, const uint8_t *bits, size_t bits_len,
               size_t payload_len)
{
    give(stream, &(struct call_case){group, PACKET_READ, expected, bits, bits_len, payload_len, NULL});
}

void give_message_write(struct stream *stream, unsigned group, uint32_t expected, const int32_t *fields,
                        size_t fields_len, size_t message_len)
{
    give(stream, &(struct call_case){group, MESSAGE_WRITE, expected, fields, fields_len, message_len, NULL});
}

void give_message_read(struct stream *stream, unsigned group, uint32_t expected, const uint8_t *message,
                       size_t message_len, size_t fields_len)
{
    give(stream, &(struct call_case){group, MESSAGE_READ, expected, message, message_len, fields_len, NULL});
}

void give_packet(struct stream *stream, unsigned group, uint32_t expected, const uint8_t *bits, size_t bits_len)
{
    give_read(stream, group, expected, bits, bits_len, SECOND_PAYLOAD_MAX);
}

size_t next_length(size_t length)
{
    if (length < EVERY_LENGTH_TO) {
        return length + 1;
    }
    return length < 65536 ? 65536 : length + 21;
}
