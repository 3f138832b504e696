/* packet.h - link packets of the second program: the product is compared with it.
 * It is written from the documents (document 01, "Link packet" and "Numbers given back"), not from the product. */
#ifndef SECOND_PACKET_H
#define SECOND_PACKET_H

#include "numbers.h"

#include <stddef.h>
#include <stdint.h>

#define SECOND_PAYLOAD_MAX 21
#define SECOND_PACKET_MIN 40
#define SECOND_PACKET_MAX 236

/* Both functions take what is given, what is lent and where the count goes, and return a number of the table.
 * A refusal changes nothing, not even the count; on success the bytes past the answer stay. */
uint32_t second_packet_write(const uint8_t *payload, size_t payload_len, uint8_t *bits, size_t bits_len,
                             uint32_t *count);
uint32_t second_packet_read(const uint8_t *bits, size_t bits_len, uint8_t *payload, size_t payload_len,
                            uint32_t *count);

/* The check sequence of a payload as a number whose low bit is sent first (the form of CRC-16/X-25). */
uint16_t second_check(const uint8_t *payload, size_t payload_len);

#endif
