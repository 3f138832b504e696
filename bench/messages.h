/* The two C candidates of the speed comparison: messages 1 to 4 a bit at a time (plain) and byte-wise (bytewise).
 *
 * All four functions keep to the same rules as qs_message_read and qs_message_write in ../include/quaysickle.h: the
 * same numbers in the same order (12, 17, 18, 19), nothing written where they refuse, and nothing written past the
 * answer where they do not. */
#ifndef BENCH_MESSAGES_H
#define BENCH_MESSAGES_H

#include <stddef.h>
#include <stdint.h>

/* A message in bytes, and the places of the list of numbers that it is read into or written from. */
enum { MESSAGE_BYTES = 21, MESSAGE_NUMBERS = 21 };

/* Numbers given back. */
enum { MESSAGE_DONE = 0, MESSAGE_LENT_SHORT = 12, MESSAGE_LENGTH = 17, MESSAGE_NO_ID = 18, MESSAGE_NO_FIT = 19 };

uint32_t plain_message_read(const uint8_t *message, size_t message_len, int32_t *fields, size_t fields_len,
                            uint32_t *count);
uint32_t plain_message_write(const int32_t *fields, size_t fields_len, uint8_t *message, size_t message_len);

uint32_t bytewise_message_read(const uint8_t *message, size_t message_len, int32_t *fields, size_t fields_len,
                               uint32_t *count);
uint32_t bytewise_message_write(const int32_t *fields, size_t fields_len, uint8_t *message, size_t message_len);

#endif
