/* Link packets by tables, a byte at a time: what a good C program can do without leaving portable C. */
#include "packets.h"

#include <string.h>

static const uint8_t flag[LINK_FLAG_BITS] = {0, 1, 1, 1, 1, 1, 1, 0};

/* The bits of a byte, low bit first, a byte each. */
static uint8_t spread_table[256][8];

/* The check sequence by one byte, low bit first. Its register is kept as two bytes, so that the way from one
 * look-up to the next is a load and an exclusive or, with nothing to mask. */
static struct {
    uint8_t low, high;
} check_table[256];

/* A byte to send, by the ones in a row before it (0 to 4): the 8 to 10 bits that go out, the first one lowest,
 * their number, and the ones in a row after it. */
static struct stuffed {
    uint16_t bits;
    uint8_t count;
    uint8_t ones;
} stuffed_table[256][5];

/* Eight bits received, by the ones in a row before them (0 to 5): the 6 to 8 bits that stay, the first one lowest,
 * their number, and the ones in a row after them. Six ones are never left again: what comes then does not matter.
 * Rows of eight instead of seven make the place of a row a shift. */
enum { SIX_ONES = 6 };
static struct unstuffed {
    uint8_t bits;
    uint8_t count;
    uint8_t ones;
    uint8_t unused;
} unstuffed_table[256][8];

static struct stuffed stuff(unsigned byte, unsigned ones)
{
    unsigned bits = 0, count = 0;

    for (unsigned place = 0; place < 8; place++) {
        unsigned bit = (byte >> place) & 1;

        bits |= bit << count++;
        ones = bit ? ones + 1 : 0;
        if (ones == 5) {
            count++;
            ones = 0;
        }
    }
    return (struct stuffed){(uint16_t)bits, (uint8_t)count, (uint8_t)ones};
}

static struct unstuffed unstuff(unsigned byte, unsigned ones)
{
    unsigned bits = 0, count = 0;

    for (unsigned place = 0; place < 8; place++) {
        unsigned bit = (byte >> place) & 1;

        if (ones == 5) {
            ones = bit ? SIX_ONES : 0;
        } else {
            bits |= bit << count++;
            if (ones != SIX_ONES)
                ones = bit ? ones + 1 : 0;
        }
    }
    return (struct unstuffed){(uint8_t)bits, (uint8_t)count, (uint8_t)ones, 0};
}

void table_packet_start(void)
{
    for (unsigned byte = 0; byte < 256; byte++) {
        unsigned check = byte;

        for (unsigned place = 0; place < 8; place++) {
            spread_table[byte][place] = (byte >> place) & 1;
            check = check & 1 ? check >> 1 ^ 0x8408 : check >> 1;
        }
        check_table[byte].low = (uint8_t)check;
        check_table[byte].high = (uint8_t)(check >> 8);
        for (unsigned ones = 0; ones < 5; ones++)
            stuffed_table[byte][ones] = stuff(byte, ones);
        for (unsigned ones = 0; ones <= SIX_ONES; ones++)
            unstuffed_table[byte][ones] = unstuff(byte, ones);
    }
}

/* Sends one byte and gives back where the next one goes. It always writes ten bits: those too many are written over
 * by what follows, at the end of the packet by the closing flag. */
static inline uint8_t *send_byte(uint8_t *bits, unsigned byte, unsigned *ones)
{
    const struct stuffed *out = &stuffed_table[byte][*ones];

    memcpy(bits, spread_table[out->bits & 0xFF], 8);
    memcpy(bits + 8, spread_table[out->bits >> 8], 2);
    *ones = out->ones;
    return bits + out->count;
}

uint32_t table_packet_write(const uint8_t *payload, size_t payload_len, uint8_t *bits, size_t bits_len,
                            uint32_t *count)
{
    uint8_t *next = bits;
    unsigned ones = 0, low = 0xFF, high = 0xFF;

    if (payload_len < LINK_PAYLOAD_MIN || payload_len > LINK_PAYLOAD_MAX)
        return LINK_LENGTH;
    if (bits_len < LINK_PACKET_MAX)
        return LINK_LENT_SHORT;

    memcpy(next, flag, LINK_FLAG_BITS);
    next += LINK_FLAG_BITS;
    /* Both go along together, so that the waits of the one are filled by the other. */
    for (size_t i = 0; i < payload_len; i++) {
        unsigned byte = payload[i], index = low ^ byte;

        low = high ^ check_table[index].low;
        high = check_table[index].high;
        next = send_byte(next, byte, &ones);
    }
    next = send_byte(next, low ^ 0xFF, &ones);
    next = send_byte(next, high ^ 0xFF, &ones);
    memcpy(next, flag, LINK_FLAG_BITS);
    next += LINK_FLAG_BITS;

    *count = (uint32_t)(next - bits);
    return LINK_DONE;
}

/* Eight bits of a packet as one number, the first one in the lowest byte. Compilers make a single load of it. */
static inline uint64_t eight_bits(const uint8_t *bits)
{
    return (uint64_t)bits[0] | (uint64_t)bits[1] << 8 | (uint64_t)bits[2] << 16 | (uint64_t)bits[3] << 24 |
           (uint64_t)bits[4] << 32 | (uint64_t)bits[5] << 40 | (uint64_t)bits[6] << 48 | (uint64_t)bits[7] << 56;
}

#define NOT_BITS 0xFEFEFEFEFEFEFEFEu
#define FLAG_EIGHT 0x0001010101010100u
#define FIVE_ONES 0x0101010101u

/* The byte that eight bits make. Each one in the factor takes one of them to its place in the highest byte, and no
 * two of the products meet, so that nothing is carried. */
static inline unsigned byte_of(uint64_t eight)
{
    return (unsigned)(eight * 0x0102040810204080u >> 56);
}

/* A packet being read: the unstuffed bits that wait to become a byte, and the check sequence of the bytes so far. */
struct reading {
    uint8_t *next;
    uint32_t waiting;
    unsigned waiting_bits;
    unsigned ones;
    unsigned low, high;
};

/* Takes in eight bits of the packet, of which the last ones may be padding. */
static inline void take_bits(struct reading *in, unsigned byte, unsigned padding)
{
    const struct unstuffed *kept = &unstuffed_table[byte][in->ones];

    in->waiting |= (uint32_t)kept->bits << in->waiting_bits;
    in->waiting_bits += kept->count - padding;
    in->ones = kept->ones;
}

static inline void keep_byte(struct reading *in)
{
    uint8_t byte = (uint8_t)in->waiting;
    unsigned index = in->low ^ byte;

    *in->next++ = byte;
    in->low = in->high ^ check_table[index].low;
    in->high = check_table[index].high;
    in->waiting >>= 8;
    in->waiting_bits -= 8;
}

uint32_t table_packet_read(const uint8_t *bits, size_t bits_len, uint8_t *payload, size_t payload_len,
                           uint32_t *count)
{
    uint8_t held[LINK_BETWEEN_MAX / 8 + 1];
    struct reading in = {held, 0, 0, 0, 0xFF, 0xFF};
    uint64_t opening, closing, eight, seen;
    size_t end, at = LINK_FLAG_BITS, held_bytes;
    unsigned padding;

    if (bits_len < LINK_PACKET_MIN || bits_len > LINK_PACKET_MAX)
        return LINK_LENGTH;
    if (payload_len < LINK_PAYLOAD_MAX)
        return LINK_LENT_SHORT;

    /* Everything is taken in by one pass, whatever it is, and only then the refusals are asked in their order. The
     * first eight bits are taken ahead: from then on each turn has a byte to keep, up to the ninth stuffed bit, and
     * the processor guesses that well. */
    end = bits_len - LINK_FLAG_BITS;
    opening = eight_bits(bits);
    closing = eight_bits(bits + end);
    eight = eight_bits(bits + at);
    seen = opening | closing | eight;
    take_bits(&in, byte_of(eight), 0);
    for (at += 8; at + 8 < end; at += 8) {
        eight = eight_bits(bits + at);
        seen |= eight;
        take_bits(&in, byte_of(eight), 0);
        if (in.waiting_bits >= 8)
            keep_byte(&in);
    }
    /* The last one to eight bits; what this load takes of the closing flag is made zeros. */
    eight = eight_bits(bits + at);
    seen |= eight;
    padding = (unsigned)(at + 8 - end);
    take_bits(&in, byte_of(eight) & (0xFFu >> padding), padding);
    while (in.waiting_bits >= 8)
        keep_byte(&in);
    held_bytes = (size_t)(in.next - held);

    if (seen & NOT_BITS)
        return LINK_NO_BIT;
    if (opening != FLAG_EIGHT || closing != FLAG_EIGHT)
        return LINK_NO_FLAG;
    if (in.ones == SIX_ONES || eight_bits(bits + end - 8) >> 24 == FIVE_ONES)
        return LINK_ONES;
    if (in.waiting_bits != 0 || held_bytes < LINK_PAYLOAD_MIN + LINK_CHECK_BYTES ||
        held_bytes > LINK_PAYLOAD_MAX + LINK_CHECK_BYTES)
        return LINK_NO_WHOLE_BYTES;
    /* The remainder that a payload with its complemented check always leaves. */
    if (in.low != 0xB8 || in.high != 0xF0)
        return LINK_CHECK_DIFFERS;

    memcpy(payload, held, held_bytes - LINK_CHECK_BYTES);
    *count = (uint32_t)(held_bytes - LINK_CHECK_BYTES);
    return LINK_DONE;
}
