/* makeday.c - writes the event log of a day at sea to standard output: 3,240,000 slots, 200 ships that report seven times a
 * minute each, and our own plan of 14 reports a minute. Always the same log. Usage: makeday */
#include "../second/log_record.h"
#include "../second/random.h"

#include <stdio.h>
#include <string.h>

enum { FRAME = 2250, MINUTES = 1440, SHIPS = 200, REPORTS = 7, OWN_RATE = 14, OWN_TIME_OUT = 7 };

/* Ships off Brest, in 1/10,000 of a minute. */
enum { LATITUDE = 29034000, LONGITUDE = -2697000, NEAR = 600000 };

/* A slot that a ship reports in, and for how many frames more. */
struct reported {
    uint32_t source;
    int32_t time_out;
};

static struct random stream = {20261115};

/* Who reports in each slot of the frame; source 0 for nobody. */
static struct reported slots[FRAME];

/* Slots that passed since the last record. */
static uint16_t passed;

static void put(struct log_record record)
{
    uint8_t bytes[SECOND_RECORD_MAX];

    record.passes = passed;
    passed = 0;
    fwrite(bytes, 1, log_record_write(&record, bytes), stdout);
}

static size_t free_slot(void)
{
    size_t slot;

    do
        slot = random_below(&stream, FRAME);
    while (slots[slot].source != 0);
    return slot;
}

static void hear(const struct reported *said, int32_t tells)
{
    int32_t fields[SECOND_FIELDS_MAX] = {
        1, 0, (int32_t)said->source, 0, 0, 100, 0, random_number(&stream, LONGITUDE - NEAR, LONGITUDE + NEAR),
        random_number(&stream, LATITUDE - NEAR, LATITUDE + NEAR), 900, 90, 30, 0, 0, 0, 0, said->time_out, tells};
    struct log_record record = {.kind = RECORD_HEAR};

    second_message_write(fields, SECOND_FIELDS_MAX, record.message, SECOND_MESSAGE_BYTES);
    put(record);
}

/* A ship's report: one frame less, or, with time-out 0, the offset to the slot that it moves to. */
static void report(size_t slot)
{
    struct reported said = slots[slot];
    size_t next;

    if (said.time_out > 0) {
        slots[slot].time_out--;
        hear(&said, said.time_out == 1 ? 0 : (int32_t)slot);
        return;
    }
    next = free_slot();
    slots[slot].source = 0;
    slots[next] = (struct reported){said.source, random_number(&stream, 3, 7)};
    hear(&said, (int32_t)((next + FRAME - slot) % FRAME + (next <= slot ? 0 : FRAME)) % 16384);
}

int main(void)
{
    put((struct log_record){.kind = RECORD_OWN, .source = 227000001, .latitude = LATITUDE, .longitude = LONGITUDE});
    put((struct log_record){.kind = RECORD_PLAN, .rate = OWN_RATE});
    for (uint32_t i = 0; i < SHIPS * REPORTS; i++)
        slots[free_slot()] = (struct reported){228000000 + i % SHIPS, random_number(&stream, 0, 7)};

    for (uint32_t minute = 0; minute < MINUTES; minute++) {
        for (size_t slot = 0; slot < FRAME; slot++) {
            if (minute % (OWN_TIME_OUT + 1) == 0 && slot % (FRAME / OWN_RATE) == 0 && slot / (FRAME / OWN_RATE) < OWN_RATE)
                put((struct log_record){.kind = RECORD_CHOOSE,
                                        .k = (uint8_t)(slot / (FRAME / OWN_RATE)),
                                        .time_out = OWN_TIME_OUT,
                                        .draw = (uint16_t)random_below(&stream, 65536)});
            if (slots[slot].source != 0)
                report(slot);
            passed++;
        }
    }
    if (fflush(stdout) != 0 || ferror(stdout) != 0) {
        fprintf(stderr, "makeday: standard output failed\n");
        return 1;
    }
    return 0;
}
