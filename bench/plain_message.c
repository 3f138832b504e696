/* Messages in plain C, one bit at a time: what an ordinary program costs. */
#include "messages.h"

#include <string.h>

/* Widths in bits, in the order of the numbers and negative for signed ones; 0 ends a row. */
static const int8_t position_report[] = {6, 2, 30, 4, -8, 10, 1, -28, -27, 12, 9, 6, 2, 3, 1, 0};
static const int8_t base_station_report[] = {6, 2, 30, 14, 4, 5, 5, 6, 6, 1, -28, -27, 4, 1, 9, 1, 0};
static const int8_t incremental[] = {2, 13, 3, 1, 0};
static const int8_t self_organised[] = {2, 3, 0};
static const int8_t hour_and_minute[] = {5, 7, 2, 0};
static const int8_t sub_message[] = {14, 0};

/* A message being read: the place of the next bit, and where the next number goes. */
struct reading {
    const uint8_t *message;
    unsigned at;
    int32_t *next;
};

static unsigned bits_of(int width)
{
    return (unsigned)(width > 0 ? width : -width);
}

static uint32_t take_bits(const uint8_t *message, unsigned at, unsigned end)
{
    uint32_t bits = 0;

    for (; at < end; at++)
        bits = bits << 1 | (message[at / 8] >> (7 - at % 8) & 1);
    return bits;
}

static void take_row(struct reading *in, const int8_t *widths)
{
    for (; *widths != 0; widths++) {
        unsigned width = bits_of(*widths);
        uint32_t bits = take_bits(in->message, in->at, in->at + width);
        uint32_t sign = *widths > 0 ? 0 : (uint32_t)1 << (width - 1);

        *in->next++ = (int32_t)(bits ^ sign) - (int32_t)sign;
        in->at += width;
    }
}

uint32_t plain_message_read(const uint8_t *message, size_t message_len, int32_t *fields, size_t fields_len,
                            uint32_t *count)
{
    struct reading in = {message, 0, fields};
    unsigned id;

    if (fields_len < MESSAGE_NUMBERS)
        return MESSAGE_LENT_SHORT;
    if (message_len != MESSAGE_BYTES)
        return MESSAGE_LENGTH;
    id = message[0] >> 2;
    if (id < 1 || id > 4)
        return MESSAGE_NO_ID;

    take_row(&in, id == 4 ? base_station_report : position_report);
    if (id == 3) {
        take_row(&in, incremental);
    } else {
        take_row(&in, self_organised);
        take_row(&in, in.next[-1] == 1 ? hour_and_minute : sub_message);
    }

    *count = (uint32_t)(in.next - fields);
    return MESSAGE_DONE;
}

/* A message being written: the number that comes next, the place of the next bit, whether a number did not fit, and
 * the bytes, which begin as zeros. */
struct writing {
    const int32_t *next;
    unsigned at;
    int no_fit;
    uint8_t message[MESSAGE_BYTES];
};

static void put_bits(uint8_t *message, unsigned at, unsigned width, uint32_t bits)
{
    for (; width > 0; at++, width--)
        message[at / 8] |= (uint8_t)((bits >> (width - 1) & 1) << (7 - at % 8));
}

static void put_row(struct writing *out, const int8_t *widths)
{
    for (; *widths != 0; widths++) {
        unsigned width = bits_of(*widths);
        int32_t number = *out->next++, values = (int32_t)1 << width;
        int32_t lowest = *widths > 0 ? 0 : -values / 2;

        out->no_fit |= number < lowest || number > lowest + values - 1;
        put_bits(out->message, out->at, width, (uint32_t)number);
        out->at += width;
    }
}

uint32_t plain_message_write(const int32_t *fields, size_t fields_len, uint8_t *message, size_t message_len)
{
    struct writing out = {fields, 0, 0, {0}};

    if (message_len < MESSAGE_BYTES)
        return MESSAGE_LENT_SHORT;
    if (fields_len < MESSAGE_NUMBERS)
        return MESSAGE_LENGTH;
    if (fields[0] < 1 || fields[0] > 4)
        return MESSAGE_NO_ID;

    put_row(&out, fields[0] == 4 ? base_station_report : position_report);
    if (fields[0] == 3) {
        put_row(&out, incremental);
    } else {
        put_row(&out, self_organised);
        put_row(&out, out.next[-1] == 1 ? hour_and_minute : sub_message);
    }
    if (out.no_fit)
        return MESSAGE_NO_FIT;

    memcpy(message, out.message, MESSAGE_BYTES);
    return MESSAGE_DONE;
}
