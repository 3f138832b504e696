/* packet.c - link packets of the second program, one bit at a time and in the order of the paper.
 * Slow on purpose: each function is one sentence of the paper, so that it can be checked by eye. */
#include "packet.h"

#include <stdbool.h>
#include <string.h>

enum {
    FLAG_BITS = 8,
    CHECK_BYTES = 2,
    STUFF_AFTER = 5,
    FRAME_MIN = 1 + CHECK_BYTES,
    FRAME_MAX = SECOND_PAYLOAD_MAX + CHECK_BYTES,
    BODY_MAX = SECOND_PACKET_MAX - 2 * FLAG_BITS
};

static const uint8_t flag[FLAG_BITS] = {0, 1, 1, 1, 1, 1, 1, 0};

/* Bit number i of a row of bytes in sending order: byte by byte, low bit first. */
static uint8_t bit_of(const uint8_t *bytes, size_t i)
{
    return (bytes[i / 8] >> (i % 8)) & 1;
}

/* The register has the x^15 coefficient in its low bit, because that one is sent first. Seen from this side the
 * polynomial x^16 + x^12 + x^5 + 1 is 0x8408. */
uint16_t second_check(const uint8_t *payload, size_t payload_len)
{
    uint16_t remainder = 0xFFFF;
    for (size_t i = 0; i < payload_len * 8; i++) {
        bool subtract = ((remainder & 1) ^ bit_of(payload, i)) == 1;
        remainder >>= 1;
        if (subtract) {
            remainder ^= 0x8408;
        }
    }
    return (uint16_t)~remainder;
}

/* Puts the frame - payload, then check - into `frame` and returns its bytes. Low bit first holds for the check too,
 * so its low byte goes first. */
static size_t frame_of(const uint8_t *payload, size_t payload_len, uint8_t *frame)
{
    uint16_t check = second_check(payload, payload_len);
    memcpy(frame, payload, payload_len);
    frame[payload_len] = (uint8_t)(check & 0xFF);
    frame[payload_len + 1] = (uint8_t)(check >> 8);
    return payload_len + CHECK_BYTES;
}

static size_t put_flag(uint8_t *bits)
{
    memcpy(bits, flag, FLAG_BITS);
    return FLAG_BITS;
}

/* Puts the bits of a frame with stuffing and returns their number. The 0 follows at once on the fifth one, so it is
 * there also where that one is the last bit. */
static size_t put_stuffed(const uint8_t *frame, size_t frame_len, uint8_t *bits)
{
    size_t put = 0;
    unsigned ones = 0;
    for (size_t i = 0; i < frame_len * 8; i++) {
        uint8_t bit = bit_of(frame, i);
        bits[put++] = bit;
        ones = bit == 1 ? ones + 1 : 0;
        if (ones == STUFF_AFTER) {
            bits[put++] = 0;
            ones = 0;
        }
    }
    return put;
}

uint32_t second_packet_write(const uint8_t *payload, size_t payload_len, uint8_t *bits, size_t bits_len,
                             uint32_t *count)
{
    if (payload_len < 1 || payload_len > SECOND_PAYLOAD_MAX) {
        return REFUSAL_LENGTH;
    }
    if (bits_len < SECOND_PACKET_MAX) {
        return REFUSAL_ROOM;
    }
    uint8_t frame[FRAME_MAX];
    size_t frame_len = frame_of(payload, payload_len, frame);
    size_t put = put_flag(bits);
    put += put_stuffed(frame, frame_len, bits + put);
    put += put_flag(bits + put);
    *count = (uint32_t)put;
    return DONE;
}

static bool all_are_bits(const uint8_t *bits, size_t bits_len)
{
    for (size_t i = 0; i < bits_len; i++) {
        if (bits[i] > 1) {
            return false;
        }
    }
    return true;
}

static bool is_flag(const uint8_t *bits)
{
    return memcmp(bits, flag, FLAG_BITS) == 0;
}

/* False where six ones stand in a row, or five at the end. The run is counted over the body only: it does not go on
 * into a flag. */
static bool well_stuffed(const uint8_t *body, size_t body_len)
{
    unsigned ones = 0;
    for (size_t i = 0; i < body_len; i++) {
        ones = body[i] == 1 ? ones + 1 : 0;
        if (ones > STUFF_AFTER) {
            return false;
        }
    }
    return ones < STUFF_AFTER;
}

/* Takes the stuffing out of a well stuffed body and returns the number of bits left: what follows five ones is the
 * stuffed 0. */
static size_t unstuff(const uint8_t *body, size_t body_len, uint8_t *plain)
{
    size_t kept = 0;
    unsigned ones = 0;
    for (size_t i = 0; i < body_len; i++) {
        if (ones == STUFF_AFTER) {
            ones = 0;
            continue;
        }
        plain[kept++] = body[i];
        ones = body[i] == 1 ? ones + 1 : 0;
    }
    return kept;
}

static bool is_frame_size(size_t plain_len)
{
    return plain_len % 8 == 0 && plain_len >= FRAME_MIN * 8 && plain_len <= FRAME_MAX * 8;
}

static size_t gather_bytes(const uint8_t *plain, size_t plain_len, uint8_t *frame)
{
    memset(frame, 0, plain_len / 8);
    for (size_t i = 0; i < plain_len; i++) {
        frame[i / 8] |= (uint8_t)(plain[i] << (i % 8));
    }
    return plain_len / 8;
}

static bool check_is_good(const uint8_t *frame, size_t frame_len)
{
    size_t payload_len = frame_len - CHECK_BYTES;
    uint16_t sent = (uint16_t)(frame[payload_len] | frame[payload_len + 1] << 8);
    return sent == second_check(frame, payload_len);
}

uint32_t second_packet_read(const uint8_t *bits, size_t bits_len, uint8_t *payload, size_t payload_len,
                            uint32_t *count)
{
    if (bits_len < SECOND_PACKET_MIN || bits_len > SECOND_PACKET_MAX) {
        return REFUSAL_LENGTH;
    }
    if (payload_len < SECOND_PAYLOAD_MAX) {
        return REFUSAL_ROOM;
    }
    if (!all_are_bits(bits, bits_len)) {
        return REFUSAL_NO_BIT;
    }
    if (!is_flag(bits) || !is_flag(bits + bits_len - FLAG_BITS)) {
        return REFUSAL_FLAG;
    }
    const uint8_t *body = bits + FLAG_BITS;
    size_t body_len = bits_len - 2 * FLAG_BITS;
    if (!well_stuffed(body, body_len)) {
        return REFUSAL_STUFFING;
    }
    uint8_t plain[BODY_MAX];
    size_t plain_len = unstuff(body, body_len, plain);
    if (!is_frame_size(plain_len)) {
        return REFUSAL_BITS;
    }
    uint8_t frame[FRAME_MAX];
    size_t frame_len = gather_bytes(plain, plain_len, frame);
    if (!check_is_good(frame, frame_len)) {
        return REFUSAL_CHECK;
    }
    memcpy(payload, frame, frame_len - CHECK_BYTES);
    *count = (uint32_t)(frame_len - CHECK_BYTES);
    return DONE;
}
