/* faults.c - makes packets with every set of faults that a packet can have. */
#include "faults.h"

#include "cases.h"
#include "damage.h"
#include "unstuffed.h"

#include <string.h>

/* In the order in which the paper has them refused: the first fault of a set is the number expected. */
static const uint32_t refusal_order[] = {
    REFUSAL_LENGTH, REFUSAL_ROOM, REFUSAL_NO_BIT, REFUSAL_FLAG, REFUSAL_STUFFING, REFUSAL_BITS, REFUSAL_CHECK,
};

enum {
    FAULT_LENGTH = 1,
    FAULT_ROOM = 2,
    FAULT_NO_BIT = 4,
    FAULT_FLAG = 8,
    FAULT_STUFFING = 16,
    FAULT_BITS = 32,
    FAULT_CHECK = 64,
    FAULT_SETS = 128
};

static uint32_t first_refusal(unsigned faults)
{
    size_t first = 0;
    while ((faults >> first & 1) == 0) {
        first++;
    }
    return refusal_order[first];
}

/* A wrong number of unstuffed bits: a frame that is too long, or one with a piece of a byte after it. */
static size_t plain_of_wrong_number(struct stream *stream, uint8_t *plain)
{
    uint8_t payload[SECOND_PAYLOAD_MAX];
    if (random_coin(&stream->random)) {
        size_t plain_len = random_from_to(&stream->random, PLAIN_MAX + 1, BODY_MAX);
        make_plain_too_long(&stream->random, plain, plain_len);
        return plain_len;
    }
    size_t plain_len = plain_of(payload, random_payload(&stream->random, payload), plain);
    uint8_t byte = random_byte(&stream->random);
    return append_bits(plain, plain_len, byte, random_from_to(&stream->random, 1, 7));
}

/* A packet with a wrong number of bits or not, and with a wrong check or not. */
static size_t packet_with_faults(struct stream *stream, unsigned faults, uint8_t *bits)
{
    size_t count;
    do {
        uint8_t payload[SECOND_PAYLOAD_MAX], plain[PLAIN_ROOM];
        size_t plain_len = (faults & FAULT_BITS) != 0
            ? plain_of_wrong_number(stream, plain)
            : plain_of(payload, random_payload(&stream->random, payload), plain);
        if ((faults & FAULT_CHECK) != 0) {
            plain[random_below(&stream->random, plain_len)] ^= 1;
        }
        count = packet_from_plain(plain, plain_len, bits);
    } while (count > SECOND_PACKET_MAX);
    return count;
}

/* Too short or too long, but still with both flags. */
static size_t make_length_wrong(struct stream *stream, uint8_t *bits, size_t count)
{
    if (random_coin(&stream->random)) {
        return stretch(stream, bits, count);
    }
    size_t shorter = random_from_to(&stream->random, 3 * FLAG_BITS, SECOND_PACKET_MIN - 1);
    memcpy(bits + shorter - FLAG_BITS, flag, FLAG_BITS);
    return shorter;
}

static void spoil_stuffing(struct stream *stream, uint8_t *bits, size_t count)
{
    if (random_coin(&stream->random)) {
        put_six_ones(stream, bits, count);
    } else {
        put_five_ones_at_end(bits, count);
    }
}

static void give_faults(struct stream *stream, unsigned faults)
{
    uint8_t bits[PACKET_ROOM];
    size_t count = packet_with_faults(stream, faults, bits);
    size_t lent = SECOND_PAYLOAD_MAX;
    if ((faults & FAULT_LENGTH) != 0) {
        count = make_length_wrong(stream, bits, count);
    }
    if ((faults & FAULT_STUFFING) != 0) {
        spoil_stuffing(stream, bits, count);
    }
    if ((faults & FAULT_FLAG) != 0) {
        break_flag(stream, bits, count);
    }
    if ((faults & FAULT_NO_BIT) != 0) {
        put_no_bit(stream, bits, count);
    }
    if ((faults & FAULT_ROOM) != 0) {
        lent = random_below(&stream->random, SECOND_PAYLOAD_MAX);
    }
    give_read(stream, CASES_ORDER, first_refusal(faults), bits, count, lent);
}

void give_several_faults(struct stream *stream)
{
    for (size_t i = 0; i < 100; i++) {
        for (unsigned faults = 1; faults < FAULT_SETS; faults++) {
            give_faults(stream, faults);
        }
    }
    for (size_t i = 0; i < 2000; i++) {
        give_wrong_payload_len(stream, CASES_ORDER, random_below(&stream->random, SECOND_PACKET_MAX));
    }
}
