/* vectors.h - the published vectors of packets.txt and check-sequence.txt, and what they say about a packet. */
#ifndef SECOND_VECTORS_H
#define SECOND_VECTORS_H

#include "packet.h"

#include <stdbool.h>

enum { VECTOR_UNKNOWN = -1 };

/* One line of either file. What the line does not tell is VECTOR_UNKNOWN. */
struct vector {
    uint8_t payload[SECOND_PAYLOAD_MAX];
    size_t payload_len;
    long check_as_sent; /* 16 bits, the one sent first being the highest */
    long stuffed_bits;
    long packet_bits;
};

/* The vector of a line of packets.txt, or of check-sequence.txt. False where the line cannot be read. */
typedef bool vector_parse(const char *line, struct vector *vector);
vector_parse parse_packet_line;
vector_parse parse_check_line;

/* What a written packet has other than its vector says, in words; NULL where it has everything. */
const char *vector_fault(const struct vector *vector, const uint8_t *bits, size_t count);

/* Sixteen bits read from the other end: from the form of CRC-16/X-25 to the bits as sent, and back. */
uint16_t turn_check(uint16_t check);

#endif
