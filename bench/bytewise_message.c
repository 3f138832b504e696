/* Messages byte-wise, in straight lines: each field is read from the bytes that it touches, and the bytes are written
 * four at a time from the fields that they hold. What a good C program can do without leaving portable C. */
#include "messages.h"

/* ---- reading ---- */

/* Up to four bytes in a row as one number. */
static inline uint32_t two_bytes(const uint8_t *bytes)
{
    return (uint32_t)bytes[0] << 8 | bytes[1];
}

static inline uint32_t three_bytes(const uint8_t *bytes)
{
    return two_bytes(bytes) << 8 | bytes[2];
}

static inline uint32_t four_bytes(const uint8_t *bytes)
{
    return three_bytes(bytes) << 8 | bytes[3];
}

/* The lowest bits of a number, and the same as a number of two's complement. */
static inline int32_t low(uint32_t bits, unsigned width)
{
    return (int32_t)(bits & (((uint32_t)1 << width) - 1));
}

static inline int32_t low_signed(uint32_t bits, unsigned width)
{
    int32_t sign = (int32_t)1 << (width - 1);

    return (low(bits, width) ^ sign) - sign;
}

static inline void read_position_report(const uint8_t *message, int32_t *fields)
{
    fields[3] = low(two_bytes(message + 4) >> 6, 4);                              /* status */
    fields[4] = low_signed(two_bytes(message + 5) >> 6, 8);                       /* turn */
    fields[5] = low(two_bytes(message + 6) >> 4, 10);                             /* speed */
    fields[6] = low(message[7] >> 3, 1);                                          /* accuracy */
    fields[7] = low_signed(four_bytes(message + 7) << 1 | message[11] >> 7, 28);  /* longitude */
    fields[8] = low_signed(four_bytes(message + 11) >> 4, 27);                    /* latitude */
    fields[9] = low(two_bytes(message + 14), 12);                                 /* course */
    fields[10] = low(two_bytes(message + 16) >> 7, 9);                            /* heading */
    fields[11] = low(message[17] >> 1, 6);                                        /* second */
    fields[12] = low(two_bytes(message + 17) >> 7, 2);                            /* manoeuvre */
    fields[13] = low(message[18] >> 4, 3);                                        /* spare */
    fields[14] = low(message[18] >> 3, 1);                                        /* RAIM */
}

static inline void read_base_station_report(const uint8_t *message, int32_t *fields)
{
    fields[3] = low(three_bytes(message + 4) >> 4, 14);                           /* year */
    fields[4] = low(message[6], 4);                                               /* month */
    fields[5] = message[7] >> 3;                                                  /* day */
    fields[6] = low(two_bytes(message + 7) >> 6, 5);                              /* hour */
    fields[7] = low(message[8], 6);                                               /* minute */
    fields[8] = message[9] >> 2;                                                  /* second */
    fields[9] = low(message[9] >> 1, 1);                                          /* accuracy */
    fields[10] = low_signed(four_bytes(message + 9) << 3 | message[13] >> 5, 28); /* longitude */
    fields[11] = low_signed(four_bytes(message + 13) >> 2, 27);                   /* latitude */
    fields[12] = low(two_bytes(message + 16) >> 6, 4);                            /* fix type */
    fields[13] = low(message[17] >> 5, 1);                                        /* control */
    fields[14] = low(two_bytes(message + 17) >> 4, 9);                            /* spare */
    fields[15] = low(message[18] >> 3, 1);                                        /* RAIM */
}

/* Reads sync, time-out and what the time-out says, and gives back how many numbers they are. */
static inline uint32_t read_self_organised(uint32_t state, int32_t *numbers)
{
    numbers[0] = low(state >> 17, 2);
    numbers[1] = low(state >> 14, 3);
    if (numbers[1] != 1) {
        numbers[2] = low(state, 14);
        return 3;
    }
    numbers[2] = low(state >> 9, 5);
    numbers[3] = low(state >> 2, 7);
    numbers[4] = low(state, 2);
    return 5;
}

static inline uint32_t read_incremental(uint32_t state, int32_t *numbers)
{
    numbers[0] = low(state >> 17, 2);
    numbers[1] = low(state >> 4, 13);
    numbers[2] = low(state >> 1, 3);
    numbers[3] = low(state, 1);
    return 4;
}

uint32_t bytewise_message_read(const uint8_t *message, size_t message_len, int32_t *fields, size_t fields_len,
                               uint32_t *count)
{
    unsigned id;
    uint32_t state;

    if (fields_len < MESSAGE_NUMBERS)
        return MESSAGE_LENT_SHORT;
    if (message_len != MESSAGE_BYTES)
        return MESSAGE_LENGTH;
    id = message[0] >> 2;
    if (id - 1 > 3)
        return MESSAGE_NO_ID;

    state = three_bytes(message + 18);
    fields[0] = (int32_t)id;
    fields[1] = low(message[0], 2);                    /* repeat */
    fields[2] = low(four_bytes(message + 1) >> 2, 30); /* source */
    if (id == 4) {
        read_base_station_report(message, fields);
        *count = 16 + read_self_organised(state, fields + 16);
    } else {
        read_position_report(message, fields);
        *count = 15 + (id == 3 ? read_incremental(state, fields + 15) : read_self_organised(state, fields + 15));
    }
    return MESSAGE_DONE;
}

/* ---- writing ---- */

/* What is past the width of a number; 0 where nothing is. */
static inline uint32_t past(uint32_t number, unsigned width)
{
    return number >> width;
}

static inline uint32_t past_signed(uint32_t number, unsigned width)
{
    return (number + ((uint32_t)1 << (width - 1))) >> width;
}

static inline uint32_t past_position_report(const uint32_t *fields)
{
    return past(fields[3], 4) | past_signed(fields[4], 8) | past(fields[5], 10) | past(fields[6], 1) |
           past_signed(fields[7], 28) | past_signed(fields[8], 27) | past(fields[9], 12) | past(fields[10], 9) |
           past(fields[11], 6) | past(fields[12], 2) | past(fields[13], 3) | past(fields[14], 1);
}

static inline uint32_t past_base_station_report(const uint32_t *fields)
{
    return past(fields[3], 14) | past(fields[4], 4) | past(fields[5], 5) | past(fields[6], 5) | past(fields[7], 6) |
           past(fields[8], 6) | past(fields[9], 1) | past_signed(fields[10], 28) | past_signed(fields[11], 27) |
           past(fields[12], 4) | past(fields[13], 1) | past(fields[14], 9) | past(fields[15], 1);
}

/* The state as its 19 bits. What is past the width of one of its numbers is added to what is past others. */
static inline uint32_t self_organised(const uint32_t *numbers, uint32_t *past_any)
{
    uint32_t sub_message = numbers[2];

    *past_any |= past(numbers[0], 2) | past(numbers[1], 3);
    if (numbers[1] == 1) {
        *past_any |= past(numbers[2], 5) | past(numbers[3], 7) | past(numbers[4], 2);
        sub_message = numbers[2] << 9 | numbers[3] << 2 | numbers[4];
    } else {
        *past_any |= past(numbers[2], 14);
    }
    return numbers[0] << 17 | numbers[1] << 14 | sub_message;
}

static inline uint32_t incremental(const uint32_t *numbers, uint32_t *past_any)
{
    *past_any |= past(numbers[0], 2) | past(numbers[1], 13) | past(numbers[2], 3) | past(numbers[3], 1);
    return numbers[0] << 17 | numbers[1] << 4 | numbers[2] << 1 | numbers[3];
}

static inline void put_four_bytes(uint8_t *bytes, uint32_t bits)
{
    bytes[0] = (uint8_t)(bits >> 24);
    bytes[1] = (uint8_t)(bits >> 16);
    bytes[2] = (uint8_t)(bits >> 8);
    bytes[3] = (uint8_t)bits;
}

/* Both write from the fifth byte on. A field that lies across two lines is in both, shifted out of each as far as it
 * belongs to the other. */
static inline void write_position_report(const uint32_t *fields, uint32_t state, uint8_t *message)
{
    uint32_t turn = fields[4] & 0xFF, longitude = fields[7] & 0xFFFFFFF, latitude = fields[8] & 0x7FFFFFF;

    put_four_bytes(message + 4, fields[2] << 26 | fields[3] << 22 | turn << 14 | fields[5] << 4 | fields[6] << 3 |
                                    longitude >> 25);
    put_four_bytes(message + 8, longitude << 7 | latitude >> 20);
    put_four_bytes(message + 12, latitude << 12 | fields[9]);
    put_four_bytes(message + 16, fields[10] << 23 | fields[11] << 17 | fields[12] << 15 | fields[13] << 12 |
                                     fields[14] << 11 | state >> 8);
}

static inline void write_base_station_report(const uint32_t *fields, uint32_t state, uint8_t *message)
{
    uint32_t longitude = fields[10] & 0xFFFFFFF, latitude = fields[11] & 0x7FFFFFF;

    put_four_bytes(message + 4, fields[2] << 26 | fields[3] << 12 | fields[4] << 8 | fields[5] << 3 | fields[6] >> 2);
    put_four_bytes(message + 8, fields[6] << 30 | fields[7] << 24 | fields[8] << 18 | fields[9] << 17 |
                                    longitude >> 11);
    put_four_bytes(message + 12, longitude << 21 | latitude >> 6);
    put_four_bytes(message + 16, latitude << 26 | fields[12] << 22 | fields[13] << 21 | fields[14] << 12 |
                                     fields[15] << 11 | state >> 8);
}

uint32_t bytewise_message_write(const int32_t *numbers, size_t fields_len, uint8_t *message, size_t message_len)
{
    const uint32_t *fields = (const uint32_t *)numbers; /* so that shifts are all of bits */
    uint32_t past_any, state;

    if (message_len < MESSAGE_BYTES)
        return MESSAGE_LENT_SHORT;
    if (fields_len < MESSAGE_NUMBERS)
        return MESSAGE_LENGTH;
    if (fields[0] - 1 > 3)
        return MESSAGE_NO_ID;

    past_any = past(fields[1], 2) | past(fields[2], 30);
    if (fields[0] == 4) {
        past_any |= past_base_station_report(fields);
        state = self_organised(fields + 16, &past_any);
        if (past_any)
            return MESSAGE_NO_FIT;
        write_base_station_report(fields, state, message);
    } else {
        past_any |= past_position_report(fields);
        state = fields[0] == 3 ? incremental(fields + 15, &past_any) : self_organised(fields + 15, &past_any);
        if (past_any)
            return MESSAGE_NO_FIT;
        write_position_report(fields, state, message);
    }
    put_four_bytes(message, fields[0] << 26 | fields[1] << 24 | fields[2] >> 6);
    message[20] = (uint8_t)state;
    return MESSAGE_DONE;
}
