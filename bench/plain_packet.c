/* Link packets in plain C, one bit at a time: what an ordinary program costs. */
#include "packets.h"

#include <string.h>

static const uint8_t flag[LINK_FLAG_BITS] = {0, 1, 1, 1, 1, 1, 1, 0};

/* One bit into the check sequence, x^15 coefficient in the high bit. */
static uint16_t check_bit(uint16_t check, unsigned bit)
{
    unsigned out = (check >> 15) ^ bit;

    check = (uint16_t)(check << 1);
    if (out)
        check ^= 0x1021;
    return check;
}

/* A packet under way: where the next bit goes, and the ones in a row before it. */
struct sending {
    uint8_t *bits;
    uint32_t count;
    unsigned ones;
};

static void send_bit(struct sending *packet, unsigned bit)
{
    packet->bits[packet->count++] = (uint8_t)bit;
    packet->ones = (packet->ones + 1) * bit; /* not a branch: on random bits one guess in two would be wrong */
    if (packet->ones == 5) {
        packet->bits[packet->count++] = 0;
        packet->ones = 0;
    }
}

static void send_flag(struct sending *packet)
{
    for (unsigned i = 0; i < LINK_FLAG_BITS; i++)
        packet->bits[packet->count++] = flag[i];
}

uint32_t plain_packet_write(const uint8_t *payload, size_t payload_len, uint8_t *bits, size_t bits_len,
                            uint32_t *count)
{
    struct sending packet = {bits, 0, 0};
    uint16_t check = 0xFFFF;

    if (payload_len < LINK_PAYLOAD_MIN || payload_len > LINK_PAYLOAD_MAX)
        return LINK_LENGTH;
    if (bits_len < LINK_PACKET_MAX)
        return LINK_LENT_SHORT;

    send_flag(&packet);
    for (size_t i = 0; i < payload_len; i++) {
        for (unsigned place = 0; place < 8; place++) {
            unsigned bit = (payload[i] >> place) & 1;

            check = check_bit(check, bit);
            send_bit(&packet, bit);
        }
    }
    check = (uint16_t)~check;
    for (unsigned place = 16; place-- > 0;)
        send_bit(&packet, (check >> place) & 1);
    send_flag(&packet);

    *count = packet.count;
    return LINK_DONE;
}

uint32_t plain_packet_read(const uint8_t *bits, size_t bits_len, uint8_t *payload, size_t payload_len,
                           uint32_t *count)
{
    /* A packet with too few stuffed bits for its length can hold more than 23 bytes until 15 is asked. */
    uint8_t held[(LINK_BETWEEN_MAX + 7) / 8] = {0};
    size_t held_bits = 0;
    unsigned ones = 0;
    uint16_t check = 0xFFFF;
    size_t held_bytes;

    if (bits_len < LINK_PACKET_MIN || bits_len > LINK_PACKET_MAX)
        return LINK_LENGTH;
    if (payload_len < LINK_PAYLOAD_MAX)
        return LINK_LENT_SHORT;
    for (size_t i = 0; i < bits_len; i++) {
        if (bits[i] > 1)
            return LINK_NO_BIT;
    }
    for (size_t i = 0; i < LINK_FLAG_BITS; i++) {
        if (bits[i] != flag[i] || bits[bits_len - LINK_FLAG_BITS + i] != flag[i])
            return LINK_NO_FLAG;
    }

    for (size_t i = LINK_FLAG_BITS; i < bits_len - LINK_FLAG_BITS; i++) {
        unsigned bit = bits[i];

        if (ones == 5) {
            if (bit)
                return LINK_ONES;
            ones = 0;
            continue;
        }
        ones = bit ? ones + 1 : 0;
        check = check_bit(check, bit);
        held[held_bits / 8] |= (uint8_t)(bit << (held_bits % 8));
        held_bits++;
    }
    if (ones == 5)
        return LINK_ONES;

    held_bytes = held_bits / 8;
    if (held_bits % 8 != 0 || held_bytes < LINK_PAYLOAD_MIN + LINK_CHECK_BYTES ||
        held_bytes > LINK_PAYLOAD_MAX + LINK_CHECK_BYTES)
        return LINK_NO_WHOLE_BYTES;
    /* The register has run over the payload and its complemented check, which always leaves this remainder. */
    if (check != 0x1D0F)
        return LINK_CHECK_DIFFERS;

    memcpy(payload, held, held_bytes - LINK_CHECK_BYTES);
    *count = (uint32_t)(held_bytes - LINK_CHECK_BYTES);
    return LINK_DONE;
}
