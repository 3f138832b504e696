/* reporting.c - the report of the second program: what we say in a slot of our own.
 * Each function is one sentence of the paper, so that it can be checked by eye. */
#include "reporting.h"

enum { HOURS = 24, MINUTES = 60, TIME_OUT_MAX = 7 };

static bool is_own(const struct book *book, size_t ahead)
{
    return book->slots[second_place(book, ahead)] == HOLDER_OWN;
}

/* The frames in a row, from the next on, in which the present slot is own. */
static uint32_t time_out_of(const struct book *book)
{
    uint32_t frames = 0;
    while (frames < TIME_OUT_MAX && is_own(book, SECOND_FRAME * ((size_t)frames + 1))) {
        frames++;
    }
    return frames;
}

static uint32_t offset_of(const struct book *book)
{
    size_t next = second_next_coming(book), distance = 0;
    if (next != 0) {
        second_first_own(book, next, second_window_slots(book->channel.plan), &distance);
    }
    return (uint32_t)distance;
}

static uint32_t stations_of(const struct book *book)
{
    uint32_t stations = 0;
    for (size_t i = 0; i < SECOND_RECORDS; i++) {
        stations += book->records[i].tally > 0;
    }
    return stations;
}

/* The two bits that time-out 1 leaves unused are 0 in a report of ours. */
static struct reported report_with(const struct book *book, uint32_t time_out, uint32_t hour, uint32_t minute)
{
    switch (time_out) {
    case 0:
        return (struct reported){.time_out = time_out, .offset = offset_of(book)};
    case 1:
        return (struct reported){.time_out = time_out, .hour = hour, .minute = minute, .unused = 0};
    case 2:
    case 4:
    case 6:
        return (struct reported){
            .time_out = time_out,
            .slot_number = (uint32_t)(second_place(book, 0) % SECOND_FRAME),
        };
    default:
        return (struct reported){.time_out = time_out, .stations = stations_of(book)};
    }
}

uint32_t second_report(const struct book *book, uint32_t hour, uint32_t minute, struct reported *reported)
{
    if (!second_lengths_fit(book)) {
        return REFUSAL_LIST_LENGTH;
    }
    if (!second_is_plan(book->channel.plan.rate, book->channel.plan.start)) {
        return REFUSAL_NO_PLAN;
    }
    if (hour >= HOURS || minute >= MINUTES) {
        return REFUSAL_RANGE;
    }
    if (!is_own(book, 0)) {
        return REFUSAL_NOT_OWN;
    }
    *reported = report_with(book, time_out_of(book), hour, minute);
    return DONE;
}
