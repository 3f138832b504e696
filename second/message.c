/* message.c - messages of the second program, one bit at a time and by the paper's list of widths.
 * Slow on purpose: each function is one sentence of the paper, so that it can be checked by eye. */
#include "message.h"

#include <string.h>

enum { MESSAGE_BITS = 8 * SECOND_MESSAGE_BYTES, STATE_BITS = 19, TIME_OUT_OF_UTC = 1 };

static const struct second_field position_report[] = {
    {6, false},  /* id */
    {2, false},  /* repeat */
    {30, false}, /* source */
    {4, false},  /* status */
    {8, true},   /* turn */
    {10, false}, /* speed */
    {1, false},  /* accuracy */
    {28, true},  /* longitude */
    {27, true},  /* latitude */
    {12, false}, /* course */
    {9, false},  /* heading */
    {6, false},  /* second */
    {2, false},  /* manoeuvre */
    {3, false},  /* spare */
    {1, false},  /* RAIM */
};

static const struct second_field base_station_report[] = {
    {6, false},  /* id */
    {2, false},  /* repeat */
    {30, false}, /* source */
    {14, false}, /* year */
    {4, false},  /* month */
    {5, false},  /* day */
    {5, false},  /* hour */
    {6, false},  /* minute */
    {6, false},  /* second */
    {1, false},  /* accuracy */
    {28, true},  /* longitude */
    {27, true},  /* latitude */
    {4, false},  /* fix type */
    {1, false},  /* control */
    {9, false},  /* spare */
    {1, false},  /* RAIM */
};

static const struct second_field sync = {2, false};
static const struct second_field time_out_field = {3, false};
static const struct second_field sub_message = {14, false};

static const struct second_field hour_and_minute[] = {
    {5, false}, /* hour */
    {7, false}, /* minute */
    {2, false}, /* unused */
};

static const struct second_field incremental[] = {
    {13, false}, /* increment */
    {3, false},  /* slots code */
    {1, false},  /* keep */
};

#define COUNT_OF(list) (sizeof(list) / sizeof(list)[0])

/* ---- which fields a message has ---- */

static bool is_id(int32_t id)
{
    return id >= ID_FIRST && id < IDS_END;
}

size_t second_state_place(int32_t id)
{
    return id == ID_BASE_STATION ? COUNT_OF(base_station_report) : COUNT_OF(position_report);
}

/* Puts fields at a place of a layout and returns the place after them. */
static size_t lay_out(struct second_field *layout, size_t at, const struct second_field *fields, size_t count)
{
    memcpy(layout + at, fields, count * sizeof fields[0]);
    return at + count;
}

size_t second_message_layout(int32_t id, int32_t time_out, struct second_field layout[SECOND_FIELDS_MAX])
{
    size_t at = lay_out(layout, 0, id == ID_BASE_STATION ? base_station_report : position_report,
                        second_state_place(id));
    at = lay_out(layout, at, &sync, 1);
    if (id == ID_INCREMENTAL) {
        return lay_out(layout, at, incremental, COUNT_OF(incremental));
    }
    at = lay_out(layout, at, &time_out_field, 1);
    if (time_out == TIME_OUT_OF_UTC) {
        return lay_out(layout, at, hour_and_minute, COUNT_OF(hour_and_minute));
    }
    return lay_out(layout, at, &sub_message, 1);
}

/* ---- reading ---- */

/* Bit number i of a message, from the high bit of its first byte on. */
static int32_t bit_of(const uint8_t *message, size_t i)
{
    return message[i / 8] >> (7 - i % 8) & 1;
}

/* No field has more than 30 bits, so nothing runs over. In two's complement the high bit stands for minus its worth. */
static int32_t read_field(const uint8_t *message, size_t at, struct second_field field)
{
    int32_t value = field.is_signed ? -bit_of(message, at) : bit_of(message, at);
    for (size_t i = at + 1; i < at + field.width; i++) {
        value = 2 * value + bit_of(message, i);
    }
    return value;
}

static int32_t read_id(const uint8_t *message)
{
    return read_field(message, 0, position_report[0]);
}

static int32_t read_time_out(const uint8_t *message)
{
    return read_field(message, MESSAGE_BITS - STATE_BITS + sync.width, time_out_field);
}

uint32_t second_message_read(const uint8_t *message, size_t message_len, int32_t *fields, size_t fields_len,
                             uint32_t *count)
{
    if (fields_len < SECOND_FIELDS_MAX) {
        return REFUSAL_ROOM;
    }
    if (message_len != SECOND_MESSAGE_BYTES) {
        return REFUSAL_MESSAGE_LENGTH;
    }
    if (!is_id(read_id(message))) {
        return REFUSAL_ID;
    }
    struct second_field layout[SECOND_FIELDS_MAX];
    size_t numbers = second_message_layout(read_id(message), read_time_out(message), layout);
    size_t at = 0;
    for (size_t i = 0; i < numbers; i++) {
        fields[i] = read_field(message, at, layout[i]);
        at += layout[i].width;
    }
    *count = (uint32_t)numbers;
    return DONE;
}

/* ---- writing ---- */

int32_t second_field_lowest(struct second_field field)
{
    return field.is_signed ? -((int32_t)1 << (field.width - 1)) : 0;
}

int32_t second_field_highest(struct second_field field)
{
    unsigned bits = field.is_signed ? field.width - 1 : field.width;
    return ((int32_t)1 << bits) - 1;
}

static bool all_fit(const int32_t *fields, const struct second_field *layout, size_t numbers)
{
    for (size_t i = 0; i < numbers; i++) {
        if (fields[i] < second_field_lowest(layout[i]) || fields[i] > second_field_highest(layout[i])) {
            return false;
        }
    }
    return true;
}

/* Puts a number into a message of zeros. Made unsigned, a negative one has the bits of two's complement. */
static void write_field(uint8_t *message, size_t at, unsigned width, int32_t value)
{
    for (size_t i = 0; i < width; i++) {
        uint32_t bit = (uint32_t)value >> (width - 1 - i) & 1;
        message[(at + i) / 8] |= (uint8_t)(bit << (7 - (at + i) % 8));
    }
}

uint32_t second_message_write(const int32_t *fields, size_t fields_len, uint8_t *message, size_t message_len)
{
    if (message_len < SECOND_MESSAGE_BYTES) {
        return REFUSAL_ROOM;
    }
    if (fields_len < SECOND_FIELDS_MAX) {
        return REFUSAL_MESSAGE_LENGTH;
    }
    if (!is_id(fields[0])) {
        return REFUSAL_ID;
    }
    /* A time-out that is none is out of its own width, so what is taken to follow it does not matter. */
    struct second_field layout[SECOND_FIELDS_MAX];
    size_t numbers = second_message_layout(fields[0], fields[second_state_place(fields[0]) + 1], layout);
    if (!all_fit(fields, layout, numbers)) {
        return REFUSAL_WIDTH;
    }
    memset(message, 0, SECOND_MESSAGE_BYTES);
    size_t at = 0;
    for (size_t i = 0; i < numbers; i++) {
        write_field(message, at, layout[i].width, fields[i]);
        at += layout[i].width;
    }
    return DONE;
}
