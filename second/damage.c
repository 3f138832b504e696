/* damage.c - damages good packets, and gives each good packet damaged in every way. */
#include "damage.h"

#include "unstuffed.h"

#include <string.h>

/* ---- one packet, in its place ---- */

void break_flag(struct stream *stream, uint8_t *bits, size_t count)
{
    size_t place = random_coin(&stream->random) ? 0 : count - FLAG_BITS;
    do {
        append_bits(bits, place, random_byte(&stream->random), FLAG_BITS);
    } while (memcmp(bits + place, flag, FLAG_BITS) == 0);
}

void put_no_bit(struct stream *stream, uint8_t *bits, size_t count)
{
    size_t place = random_below(&stream->random, count);
    bits[place] = (uint8_t)random_from_to(&stream->random, 2, 255);
}

size_t stretch(struct stream *stream, uint8_t *bits, size_t count)
{
    size_t longer = random_from_to(&stream->random, SECOND_PACKET_MAX + 1, WRONG_PACKET_MAX);
    memset(bits + count - FLAG_BITS, 0, longer - count);
    memcpy(bits + longer - FLAG_BITS, flag, FLAG_BITS);
    return longer;
}

void put_six_ones(struct stream *stream, uint8_t *bits, size_t count)
{
    size_t place = random_from_to(&stream->random, FLAG_BITS, count - FLAG_BITS - 6);
    memset(bits + place, 1, 6);
}

void put_five_ones_at_end(uint8_t *bits, size_t count)
{
    bits[count - FLAG_BITS - 6] = 0;
    memset(bits + count - FLAG_BITS - 5, 1, 5);
}

/* ---- copies of a good packet, given as cases ---- */

/* One flip is refused in every packet: in a flag by 13. In the body it makes six ones (14), or breaks up or makes a
 * run of five, so that one unstuffed bit comes in or is lost (15), or changes one unstuffed bit (16). */
static void give_flipped(struct stream *stream, const uint8_t *packet, size_t count)
{
    uint8_t bits[PACKET_ROOM];
    memcpy(bits, packet, count);
    bits[random_below(&stream->random, count)] ^= 1;
    give_packet(stream, CASES_FLIPPED, EXPECT_REFUSAL, bits, count);
}

static void give_inserted(struct stream *stream, const uint8_t *packet, size_t count)
{
    uint8_t bits[PACKET_ROOM];
    size_t place = random_below(&stream->random, count + 1);
    memcpy(bits, packet, place);
    bits[place] = random_coin(&stream->random);
    memcpy(bits + place + 1, packet + place, count - place);
    give_packet(stream, CASES_INSERTED, EXPECT_ANY, bits, count + 1);
}

static void give_dropped(struct stream *stream, const uint8_t *packet, size_t count)
{
    uint8_t bits[PACKET_ROOM];
    size_t place = random_below(&stream->random, count);
    memcpy(bits, packet, place);
    memcpy(bits + place, packet + place + 1, count - place - 1);
    give_packet(stream, CASES_DROPPED, EXPECT_ANY, bits, count - 1);
}

static void give_broken_flag(struct stream *stream, const uint8_t *packet, size_t count)
{
    uint8_t bits[PACKET_ROOM];
    memcpy(bits, packet, count);
    break_flag(stream, bits, count);
    give_packet(stream, CASES_FLAG, REFUSAL_FLAG, bits, count);
}

static void give_no_bit(struct stream *stream, const uint8_t *packet, size_t count)
{
    uint8_t bits[PACKET_ROOM];
    memcpy(bits, packet, count);
    put_no_bit(stream, bits, count);
    give_packet(stream, CASES_NO_BIT, REFUSAL_NO_BIT, bits, count);
}

/* What is left of a packet never ends with a flag, since six ones stand in its flags only. */
static void give_cut(struct stream *stream, const uint8_t *packet, size_t count)
{
    size_t left = random_below(&stream->random, count);
    uint32_t expected = left < SECOND_PACKET_MIN ? REFUSAL_LENGTH : REFUSAL_FLAG;
    give_packet(stream, CASES_CUT, expected, packet, left);
}

static void give_stretched(struct stream *stream, const uint8_t *packet, size_t count)
{
    uint8_t bits[PACKET_ROOM];
    memcpy(bits, packet, count);
    size_t longer = stretch(stream, bits, count);
    give_packet(stream, CASES_LENGTHS, REFUSAL_LENGTH, bits, longer);
}

static size_t wrong_payload_len(struct stream *stream)
{
    size_t len = random_from_to(&stream->random, SECOND_PAYLOAD_MAX, WRONG_PAYLOAD_MAX);
    return len == SECOND_PAYLOAD_MAX ? 0 : len;
}

void give_wrong_payload_len(struct stream *stream, enum case_group group, size_t bits_len)
{
    uint8_t payload[WRONG_PAYLOAD_MAX];
    fill_random(&stream->random, payload, sizeof payload);
    give_write(stream, group, REFUSAL_LENGTH, payload, wrong_payload_len(stream), bits_len);
}

/* One of the four lengths of this payload and its packet is wrong. */
static void give_wrong_length(struct stream *stream, const uint8_t *payload, size_t payload_len, const uint8_t *packet,
                              size_t count)
{
    struct random *random = &stream->random;
    switch (random_below(random, 4)) {
    case 0:
        give_wrong_payload_len(stream, CASES_LENGTHS, SECOND_PACKET_MAX);
        break;
    case 1:
        give_write(stream, CASES_LENGTHS, REFUSAL_ROOM, payload, payload_len, random_below(random, SECOND_PACKET_MAX));
        break;
    case 2:
        give_read(stream, CASES_LENGTHS, REFUSAL_ROOM, packet, count, random_below(random, SECOND_PAYLOAD_MAX));
        break;
    default:
        give_stretched(stream, packet, count);
        break;
    }
}

void give_damaged(struct stream *stream, const uint8_t *payload, size_t payload_len, const uint8_t *packet,
                  size_t count)
{
    give_flipped(stream, packet, count);
    give_inserted(stream, packet, count);
    give_dropped(stream, packet, count);
    give_broken_flag(stream, packet, count);
    give_no_bit(stream, packet, count);
    give_cut(stream, packet, count);
    give_wrong_length(stream, payload, payload_len, packet, count);
}
