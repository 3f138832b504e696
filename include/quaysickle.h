/* The AIS link layer for the radio board: link packets and messages 1 to 4, written and read.
 *
 * Every function here is proved to meet what its comment says, for every input, as long as its caller keeps these three rules:
 *   - a pointer that comes with a length points at that many bytes, or numbers (never NULL, not even with length 0);
 *   - a count points at one uint32_t;
 *   - what a function writes to overlaps nothing else that it is lent.
 *
 * Each function returns 0 when it has done its work. Otherwise it returns a number of the service sheet (docs/SERVICE-SHEET.md) and has
 * changed nothing: neither a lent byte or number nor the count. Where several numbers fit, the one that the comment lists first is returned.
 *
 * A bit is one byte, 0 or 1, in the order in which the bits are sent. Nothing is kept between two calls, so they may be made from
 * anywhere, also at the same time on buffers of their own. No function allocates, blocks or needs more than 2 KB of stack. */
#ifndef QUAYSICKLE_H
#define QUAYSICKLE_H

#include <stddef.h>
#include <stdint.h>

#ifdef __cplusplus
extern "C" {
#endif

/* The limits of a packet: from opening to closing flag 40 to 236 bits, with a payload of 1 to 21 bytes. */
#define QS_PAYLOAD_MAX 21
#define QS_PACKET_MAX 236

/* Writes the link packet of a payload: opening flag, payload and check sequence with stuffing, closing flag.
 *   payload, payload_len   the payload, 1 to 21 bytes
 *   bits, bits_len         where the packet goes, at least 236 bytes, whatever this packet needs
 *   count                  gets the number of bits written, 40 to 236
 * The bytes of `bits` past the count stay as they were. Returns
 *   0    the packet stands in the first *count bytes of `bits`
 *   11   payload_len is not 1 to 21
 *   12   bits_len is under 236 */
uint32_t qs_packet_write(const uint8_t *payload, size_t payload_len, uint8_t *bits, size_t bits_len, uint32_t *count);

/* Reads a link packet, from the first bit of its opening flag to the last bit of its closing flag.
 *   bits, bits_len         the packet's bits, 40 to 236
 *   payload, payload_len   where the payload goes, at least 21 bytes, whatever this packet holds
 *   count                  gets the number of payload bytes, 1 to 21
 * The bytes of `payload` past the count stay as they were. Returns
 *   0    the payload stands in the first *count bytes of `payload`
 *   11   bits_len is not 40 to 236
 *   12   payload_len is under 21
 *   10   a byte of `bits` is neither 0 nor 1
 *   13   the first or the last eight bits are no flag, 01111110
 *   14   between the flags stand six ones in a row, or five ones at the end
 *   15   without stuffing they are not 3 to 23 whole bytes
 *   16   the check sequence differs */
uint32_t qs_packet_read(const uint8_t *bits, size_t bits_len, uint8_t *payload, size_t payload_len, uint32_t *count);

/* A message has 21 bytes and, taken apart, at most 21 numbers. First come its fields in the order of the standard:
 *   messages 1, 2, 3   id, repeat, source, status, turn, speed, accuracy, longitude, latitude, course, heading, second, manoeuvre, spare,
 *                      RAIM: 15 numbers
 *   message 4          id, repeat, source, year, month, day, hour, minute, second, accuracy, longitude, latitude, fix type, control, spare,
 *                      RAIM: 16 numbers
 * and then its state:
 *   messages 1, 2, 4   sync, time-out, and what the time-out says: the slot offset (0), the slot number (2, 4, 6) or the stations received
 *                      (3, 5, 7); hour, minute and the two unused bits (1)
 *   message 3          sync, increment, slots code, keep
 * Turn, longitude and latitude are signed, longitude and latitude in 1/10000 minute. Every bit is kept, spare ones too. */
#define QS_MESSAGE_BYTES 21
#define QS_FIELDS_MAX 21

/* Reads a message into its numbers.
 *   message, message_len   the message, 21 bytes
 *   fields, fields_len     where the numbers go, at least 21 places, whatever this message has
 *   count                  gets how many there are, 18 to 21
 * The numbers of `fields` past the count stay as they were. Returns
 *   0    the numbers stand in the first *count places of `fields`
 *   12   fields_len is under 21
 *   17   message_len is not 21
 *   18   the id is not 1 to 4 */
uint32_t qs_message_read(const uint8_t *message, size_t message_len, int32_t *fields, size_t fields_len, uint32_t *count);

/* Writes a message of its numbers, in the order in which they are read.
 *   fields, fields_len     the numbers, in a list of at least 21; those past what the message has are not looked at
 *   message, message_len   where the message goes, at least 21 bytes
 * The bytes of `message` past the 21st stay as they were. Returns
 *   0    the message stands in the first 21 bytes of `message`
 *   12   message_len is under 21
 *   17   fields_len is under 21
 *   18   the id is not 1 to 4
 *   19   a number does not fit the width of its field */
uint32_t qs_message_write(const int32_t *fields, size_t fields_len, uint8_t *message, size_t message_len);

#ifdef __cplusplus
}
#endif

#endif
