/* The two C candidates of the speed comparison: link packets a bit at a time (plain) and by tables (table).
 *
 * All four functions keep to the same rules as qs_packet_write and qs_packet_read in ../include/quaysickle.h:
 * the same numbers in the same order (11, 12, 10, 13 to 16), nothing written where they refuse, and nothing
 * written past the answer where they do not. */
#ifndef BENCH_PACKETS_H
#define BENCH_PACKETS_H

#include <stddef.h>
#include <stdint.h>

/* Limits of the link packet, in bytes and in bits. */
enum {
    LINK_PAYLOAD_MIN = 1,
    LINK_PAYLOAD_MAX = 21,
    LINK_CHECK_BYTES = 2,
    LINK_FLAG_BITS = 8,
    LINK_PACKET_MIN = 40,
    LINK_PACKET_MAX = 236,
    LINK_BETWEEN_MAX = LINK_PACKET_MAX - 2 * LINK_FLAG_BITS /* bits between the flags, stuffed ones counted */
};

/* Numbers given back. */
enum {
    LINK_DONE = 0,
    LINK_NO_BIT = 10,
    LINK_LENGTH = 11,
    LINK_LENT_SHORT = 12,
    LINK_NO_FLAG = 13,
    LINK_ONES = 14,
    LINK_NO_WHOLE_BYTES = 15,
    LINK_CHECK_DIFFERS = 16
};

uint32_t plain_packet_write(const uint8_t *payload, size_t payload_len, uint8_t *bits, size_t bits_len,
                            uint32_t *count);
uint32_t plain_packet_read(const uint8_t *bits, size_t bits_len, uint8_t *payload, size_t payload_len,
                           uint32_t *count);

/* Fills the tables; to be called once before the two functions below. */
void table_packet_start(void);
uint32_t table_packet_write(const uint8_t *payload, size_t payload_len, uint8_t *bits, size_t bits_len,
                            uint32_t *count);
uint32_t table_packet_read(const uint8_t *bits, size_t bits_len, uint8_t *payload, size_t payload_len,
                           uint32_t *count);

#endif
