/* message.h - messages 1 to 4 of the second program: the product is compared with it.
 * It is written from the documents (document 01, "Messages" and "Numbers given back"), not from the product.
 *
 * A message is a list of numbers: its fields in the order of document 01, then the state taken apart. That is sync,
 * time-out and what the time-out says (hour, minute and the unused bits for 1, one number for the others), or in
 * message 3 sync, increment, slots code and keep. */
#ifndef SECOND_MESSAGE_H
#define SECOND_MESSAGE_H

#include "numbers.h"

#include <stdbool.h>
#include <stddef.h>
#include <stdint.h>

#define SECOND_MESSAGE_BYTES 21
#define SECOND_FIELDS_MIN 18
#define SECOND_FIELDS_MAX 21

/* The ids are 1 to 4; message 3 alone has the incremental state, message 4 is the base station's. */
enum { ID_FIRST = 1, ID_INCREMENTAL = 3, ID_BASE_STATION = 4, IDS_END };

/* Both functions return a number of the table. A refusal changes nothing, not even the count; on success what lies past
 * the answer stays. The list to be written has 21 places, and what the message does not use of it is not looked at. */
uint32_t second_message_read(const uint8_t *message, size_t message_len, int32_t *fields, size_t fields_len,
                             uint32_t *count);
uint32_t second_message_write(const int32_t *fields, size_t fields_len, uint8_t *message, size_t message_len);

struct second_field {
    unsigned width; /* in bits */
    bool is_signed; /* in two's complement */
};

/* The numbers of a message of this id, 1 to 4, in their order; returns how many they are. The time-out tells how the
 * state goes on, except in message 3. */
size_t second_message_layout(int32_t id, int32_t time_out, struct second_field layout[SECOND_FIELDS_MAX]);

/* The place of sync, the first number of the state. The time-out, or the increment, comes next. */
size_t second_state_place(int32_t id);

/* The lowest and the highest value that a field can hold. */
int32_t second_field_lowest(struct second_field field);
int32_t second_field_highest(struct second_field field);

#endif
