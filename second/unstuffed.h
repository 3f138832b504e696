/* unstuffed.h - packets made from any list of unstuffed bits, also from such as no packet may hold. */
#ifndef SECOND_UNSTUFFED_H
#define SECOND_UNSTUFFED_H

#include "packet.h"
#include "random.h"

#include <stdbool.h>

enum {
    FLAG_BITS = 8,
    CHECK_BITS = 16,
    WRONG_PAYLOAD_MAX = 30,
    WRONG_PACKET_MAX = 300,
    PLAIN_ROOM = 8 * WRONG_PAYLOAD_MAX + CHECK_BITS,
    PACKET_ROOM = 400,
    PLAIN_MAX = 8 * SECOND_PAYLOAD_MAX + CHECK_BITS,
    BODY_MAX = SECOND_PACKET_MAX - 2 * FLAG_BITS
};

extern const uint8_t flag[FLAG_BITS];

/* Puts the low bits of a value, lowest first, at a place in a list; returns the place after them. */
size_t append_bits(uint8_t *plain, size_t at, uint32_t value, size_t bits);

/* The unstuffed bits of payload and check, in sending order. A check other than the good one may be asked for, and
 * the payload may be longer than a packet allows. */
size_t plain_with_check(const uint8_t *payload, size_t payload_len, uint16_t check, uint8_t *plain);
size_t plain_of(const uint8_t *payload, size_t payload_len, uint8_t *plain);

/* A frame with a good check, of 21 bytes or more of payload, and up to 7 bits more. */
void make_plain_too_long(struct random *random, uint8_t *plain, size_t plain_len);

/* Flags about any number of unstuffed bits, legally stuffed; returns the bits in all. */
size_t packet_from_plain(const uint8_t *plain, size_t plain_len, uint8_t *bits);
size_t packet_of(const uint8_t *payload, size_t payload_len, uint8_t *bits);

/* True where a well stuffed packet ends with a stuffed 0 and the closing flag. */
bool ends_with_stuffed_zero(const uint8_t *bits, size_t count);

#endif
