/* damage.h - the ways in which a good packet is damaged. */
#ifndef SECOND_DAMAGE_H
#define SECOND_DAMAGE_H

#include "cases.h"
#include "stream.h"

/* Puts eight other bits in place of the opening or the closing flag. */
void break_flag(struct stream *stream, uint8_t *bits, size_t count);

void put_no_bit(struct stream *stream, uint8_t *bits, size_t count);

/* Moves the closing flag so far out that the packet is too long; zeros fill the gap. Returns the new length. */
size_t stretch(struct stream *stream, uint8_t *bits, size_t count);

void put_six_ones(struct stream *stream, uint8_t *bits, size_t count);

/* Exactly five, so that six in a row is not what gets them refused. */
void put_five_ones_at_end(uint8_t *bits, size_t count);

void give_wrong_payload_len(struct stream *stream, enum case_group group, size_t bits_len);

/* A good payload and its packet, damaged once in each way that has a group of its own. */
void give_damaged(struct stream *stream, const uint8_t *payload, size_t payload_len, const uint8_t *packet,
                  size_t count);

#endif
