/* refusals.c - makes lengths about every limit, and packets for one refusal each. */
#include "refusals.h"

#include "cases.h"
#include "damage.h"
#include "unstuffed.h"
#include "vectors.h"

#include <string.h>

/* ---- lengths about the limits ---- */

static void border_payload_lengths(struct stream *stream)
{
    static uint8_t payload[CASE_LENGTH_MAX];
    fill_random(&stream->random, payload, sizeof payload);
    for (size_t len = 0; len <= CASE_LENGTH_MAX; len = next_length(len)) {
        bool right = len >= 1 && len <= SECOND_PAYLOAD_MAX;
        give_write(stream, CASES_BORDERS, right ? DONE : REFUSAL_LENGTH, payload, len, SECOND_PACKET_MAX);
    }
}

/* Zeros between flags: never a good packet, but 15 or 16 where the length is right. */
static void border_packet_lengths(struct stream *stream)
{
    static uint8_t bits[CASE_LENGTH_MAX];
    for (size_t len = 0; len <= CASE_LENGTH_MAX; len = next_length(len)) {
        size_t plain_len = len - 2 * FLAG_BITS;
        uint32_t expected = plain_len % 8 == 0 && plain_len <= PLAIN_MAX ? REFUSAL_CHECK : REFUSAL_BITS;
        if (len < SECOND_PACKET_MIN || len > SECOND_PACKET_MAX) {
            expected = REFUSAL_LENGTH;
        }
        memset(bits, 0, len);
        if (len >= 2 * FLAG_BITS) {
            memcpy(bits, flag, FLAG_BITS);
            memcpy(bits + len - FLAG_BITS, flag, FLAG_BITS);
        }
        give_packet(stream, CASES_BORDERS, expected, bits, len);
    }
}

static void border_lent_lengths(struct stream *stream, size_t payload_len)
{
    uint8_t payload[SECOND_PAYLOAD_MAX], packet[PACKET_ROOM];
    fill_rich_in_ones(&stream->random, payload, payload_len);
    size_t count = packet_of(payload, payload_len, packet);
    for (size_t len = 0; len <= CASE_LENGTH_MAX; len = next_length(len)) {
        give_write(stream, CASES_BORDERS, len < SECOND_PACKET_MAX ? REFUSAL_ROOM : DONE, payload, payload_len, len);
        give_read(stream, CASES_BORDERS, len < SECOND_PAYLOAD_MAX ? REFUSAL_ROOM : DONE, packet, count, len);
    }
}

static void borders(struct stream *stream)
{
    border_payload_lengths(stream);
    border_packet_lengths(stream);
    border_lent_lengths(stream, 1);
    border_lent_lengths(stream, SECOND_PAYLOAD_MAX);
}

/* ---- 14: bad stuffing ---- */

static size_t random_packet(struct stream *stream, uint8_t *bits)
{
    uint8_t payload[SECOND_PAYLOAD_MAX];
    size_t payload_len = random_payload(&stream->random, payload);
    return packet_of(payload, payload_len, bits);
}

static void six_ones(struct stream *stream)
{
    for (size_t i = 0; i < 5000; i++) {
        uint8_t bits[PACKET_ROOM];
        size_t count = random_packet(stream, bits);
        put_six_ones(stream, bits, count);
        give_packet(stream, CASES_SIX_ONES, REFUSAL_STUFFING, bits, count);
    }
}

static void five_ones_at_end(struct stream *stream)
{
    for (size_t i = 0; i < 5000; i++) {
        uint8_t bits[PACKET_ROOM];
        size_t count = random_packet(stream, bits);
        put_five_ones_at_end(bits, count);
        give_packet(stream, CASES_FIVE_ONES, REFUSAL_STUFFING, bits, count);
    }
}

/* The stuffed 0 before the closing flag is left out: nothing else is wrong with these. */
static void last_stuffed_zero_left_out(struct stream *stream)
{
    for (size_t found = 0; found < 500;) {
        uint8_t bits[PACKET_ROOM];
        size_t count = random_packet(stream, bits);
        if (ends_with_stuffed_zero(bits, count)) {
            memcpy(bits + count - FLAG_BITS - 1, flag, FLAG_BITS);
            give_packet(stream, CASES_FIVE_ONES, REFUSAL_STUFFING, bits, count - 1);
            found++;
        }
    }
}

/* ---- 15: a wrong number of unstuffed bits ---- */

/* 40 bits in all need a stuffed 0 for each unstuffed bit that is missing, so these are nearly all ones. */
static void too_few(struct stream *stream, size_t plain_len)
{
    for (size_t found = 0; found < 50;) {
        uint8_t plain[24], bits[PACKET_ROOM];
        memset(plain, 1, sizeof plain);
        for (size_t zeros = random_below(&stream->random, 3); zeros > 0; zeros--) {
            plain[random_below(&stream->random, plain_len)] = 0;
        }
        size_t count = packet_from_plain(plain, plain_len, bits);
        if (count >= SECOND_PACKET_MIN) {
            give_packet(stream, CASES_TOO_FEW, REFUSAL_BITS, bits, count);
            found++;
        }
    }
}

/* A good frame and 1 to 7 bits more, so that dividing by eight and forgetting the rest is found out. */
static void not_whole(struct stream *stream, size_t payload_len, size_t more)
{
    for (size_t i = 0; i < 20; i++) {
        uint8_t payload[SECOND_PAYLOAD_MAX], plain[PLAIN_ROOM], bits[PACKET_ROOM];
        fill_payload(&stream->random, payload, payload_len);
        size_t plain_len = plain_of(payload, payload_len, plain);
        plain_len = append_bits(plain, plain_len, random_byte(&stream->random), more);
        give_packet(stream, CASES_NOT_WHOLE, REFUSAL_BITS, bits, packet_from_plain(plain, plain_len, bits));
    }
}

/* Where the stuffing takes one past 236 bits, another is made: 11 is not what is asked for here. */
static void too_many(struct stream *stream, size_t plain_len)
{
    for (size_t found = 0; found < 20;) {
        uint8_t plain[PLAIN_ROOM], bits[PACKET_ROOM];
        make_plain_too_long(&stream->random, plain, plain_len);
        size_t count = packet_from_plain(plain, plain_len, bits);
        if (count <= SECOND_PACKET_MAX) {
            give_packet(stream, CASES_TOO_MANY, REFUSAL_BITS, bits, count);
            found++;
        }
    }
}

static void wrong_numbers_of_bits(struct stream *stream)
{
    for (size_t plain_len = 20; plain_len < 24; plain_len++) {
        too_few(stream, plain_len);
    }
    for (size_t payload_len = 1; payload_len < SECOND_PAYLOAD_MAX; payload_len++) {
        for (size_t more = 1; more < 8; more++) {
            not_whole(stream, payload_len, more);
        }
    }
    for (size_t plain_len = PLAIN_MAX + 1; plain_len <= BODY_MAX; plain_len++) {
        too_many(stream, plain_len);
    }
}

/* ---- 16: a wrong check ---- */

static void each_data_bit_flipped(struct stream *stream, const uint8_t *payload, size_t payload_len)
{
    uint8_t plain[PLAIN_ROOM], bits[PACKET_ROOM];
    size_t plain_len = plain_of(payload, payload_len, plain);
    for (size_t i = 0; i < plain_len; i++) {
        plain[i] ^= 1;
        give_packet(stream, CASES_CHECK, REFUSAL_CHECK, bits, packet_from_plain(plain, plain_len, bits));
        plain[i] ^= 1;
    }
}

/* Checks as a wrong program would make them: not complemented, bits or bytes the other way round, any. */
static void wrong_checks(struct stream *stream, const uint8_t *payload, size_t payload_len)
{
    uint16_t good = second_check(payload, payload_len);
    const uint16_t checks[] = {
        (uint16_t)~good, turn_check(good), (uint16_t)(good << 8 | good >> 8), 0x0000, 0xFFFF,
        (uint16_t)random_below(&stream->random, 0x10000),
    };
    for (size_t i = 0; i < sizeof checks / sizeof checks[0]; i++) {
        uint8_t plain[PLAIN_ROOM], bits[PACKET_ROOM];
        if (checks[i] != good) {
            size_t plain_len = plain_with_check(payload, payload_len, checks[i], plain);
            give_packet(stream, CASES_CHECK, REFUSAL_CHECK, bits, packet_from_plain(plain, plain_len, bits));
        }
    }
}

static void bad_checks(struct stream *stream)
{
    for (size_t i = 0; i < 10; i++) {
        for (size_t payload_len = 1; payload_len <= SECOND_PAYLOAD_MAX; payload_len++) {
            uint8_t payload[SECOND_PAYLOAD_MAX];
            fill_payload(&stream->random, payload, payload_len);
            each_data_bit_flipped(stream, payload, payload_len);
            wrong_checks(stream, payload, payload_len);
        }
    }
}

void give_refusals(struct stream *stream)
{
    borders(stream);
    six_ones(stream);
    five_ones_at_end(stream);
    last_stuffed_zero_left_out(stream);
    wrong_numbers_of_bits(stream);
    bad_checks(stream);
}
