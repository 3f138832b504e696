/* unstuffed.c - makes lists of unstuffed bits, good ones and wrong ones, and packets from them. */
#include "unstuffed.h"

#include <string.h>

const uint8_t flag[FLAG_BITS] = {0, 1, 1, 1, 1, 1, 1, 0};

size_t append_bits(uint8_t *plain, size_t at, uint32_t value, size_t bits)
{
    for (size_t i = 0; i < bits; i++) {
        plain[at + i] = (uint8_t)(value >> i & 1);
    }
    return at + bits;
}

size_t plain_with_check(const uint8_t *payload, size_t payload_len, uint16_t check, uint8_t *plain)
{
    size_t at = 0;
    for (size_t i = 0; i < payload_len; i++) {
        at = append_bits(plain, at, payload[i], 8);
    }
    return append_bits(plain, at, check, CHECK_BITS);
}

size_t plain_of(const uint8_t *payload, size_t payload_len, uint8_t *plain)
{
    return plain_with_check(payload, payload_len, second_check(payload, payload_len), plain);
}

void make_plain_too_long(struct random *random, uint8_t *plain, size_t plain_len)
{
    uint8_t payload[WRONG_PAYLOAD_MAX];
    size_t payload_len = (plain_len - CHECK_BITS) / 8;
    fill_poor_in_ones(random, payload, payload_len);
    size_t frame_len = plain_of(payload, payload_len, plain);
    append_bits(plain, frame_len, random_byte(random), plain_len - frame_len);
}

size_t packet_from_plain(const uint8_t *plain, size_t plain_len, uint8_t *bits)
{
    size_t at = FLAG_BITS;
    size_t ones = 0;
    memcpy(bits, flag, FLAG_BITS);
    for (size_t i = 0; i < plain_len; i++) {
        bits[at++] = plain[i];
        ones = plain[i] == 1 ? ones + 1 : 0;
        if (ones == 5) {
            bits[at++] = 0;
            ones = 0;
        }
    }
    memcpy(bits + at, flag, FLAG_BITS);
    return at + FLAG_BITS;
}

size_t packet_of(const uint8_t *payload, size_t payload_len, uint8_t *bits)
{
    uint8_t plain[PLAIN_ROOM];
    return packet_from_plain(plain, plain_of(payload, payload_len, plain), bits);
}

bool ends_with_stuffed_zero(const uint8_t *bits, size_t count)
{
    static const uint8_t ending[] = {1, 1, 1, 1, 1, 0, 0, 1, 1, 1, 1, 1, 1, 0};
    return count >= sizeof ending && memcmp(bits + count - sizeof ending, ending, sizeof ending) == 0;
}
