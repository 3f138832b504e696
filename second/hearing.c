/* hearing.c - the slot book of the second program: what a message that is heard does to the register and the slots.
 * Slow on purpose: each function is one sentence of the paper, so that it can be checked by eye. */
#include "book.h"

#include "message.h"
#include "rows.h"

/* Where a message's list of numbers has what hearing needs. */
enum { PLACE_ID = 0, PLACE_REPEAT = 1, PLACE_SOURCE = 2, PLACE_LONGITUDE = 7, PLACE_BASE_LONGITUDE = 10 };

/* ---- marks ---- */

/* Marks the time so far ahead for a station, unless it is our own; returns whether it did. */
static bool mark(struct book *book, size_t ahead, uint16_t record)
{
    size_t place = second_place(book, ahead);
    if (book->slots[place] == HOLDER_OWN) {
        return false;
    }
    second_hand_over(book, place, record);
    return true;
}

static void free_if_held(struct book *book, size_t ahead, uint16_t record)
{
    size_t place = second_place(book, ahead);
    if (book->slots[place] == record) {
        second_hand_over(book, place, HOLDER_NONE);
    }
}

static void free_rows(struct book *book, uint16_t record, struct rows *rows)
{
    uint64_t ahead = second_next_time(rows, ACT_FREE, 0);
    while (ahead < SECOND_SLOTS) {
        free_if_held(book, (size_t)ahead, record);
        ahead = second_next_time(rows, ACT_FREE, ahead + 1);
    }
}

static uint32_t mark_rows(struct book *book, uint16_t record, struct rows *rows)
{
    uint32_t marks = 0;
    uint64_t ahead = second_next_time(rows, ACT_MARK, 0);
    while (ahead < SECOND_SLOTS) {
        marks += mark(book, (size_t)ahead, record);
        ahead = second_next_time(rows, ACT_MARK, ahead + 1);
    }
    return marks;
}

/* Frees first, then marks, each time once and in the order of time; returns MARKS. */
static uint32_t carry_out(struct book *book, uint16_t record, struct rows *rows)
{
    free_rows(book, record, rows);
    return mark_rows(book, record, rows);
}

uint32_t second_mark(struct book *book, uint16_t record, const struct announcement *said, uint32_t *marks)
{
    struct rows rows;
    if (!second_lengths_fit(book)) {
        return REFUSAL_LIST_LENGTH;
    }
    second_announce(&rows, said);
    if (second_lies_beyond(&rows)) {
        return REFUSAL_BEYOND;
    }
    *marks = carry_out(book, record, &rows);
    return DONE;
}

/* ---- the register ---- */

/* Both give the lowest number of a record that fits, or 0 where there is none. */
static uint16_t record_of(const struct book *book, uint32_t source)
{
    for (uint16_t number = 1; number <= SECOND_RECORDS; number++) {
        if (book->records[number - 1].source == source) {
            return number;
        }
    }
    return 0;
}

static uint16_t record_to_take_over(const struct book *book)
{
    for (uint16_t number = 1; number <= SECOND_RECORDS; number++) {
        if (book->records[number - 1].tally == 0) {
            return number;
        }
    }
    return 0;
}

/* A record that is taken over keeps nothing of its old station; a station that comes again keeps tally and hold-off. */
static void enter(struct station *record, const struct spoken *spoken)
{
    if (record->source != spoken->source) {
        *record = (struct station){.source = spoken->source};
    }
    record->base = spoken->base;
    record->latitude = spoken->latitude;
    record->longitude = spoken->longitude;
}

/* ---- hearing ---- */

uint32_t second_hear_spoken(struct book *book, const struct spoken *spoken, struct heard *heard)
{
    struct rows rows;
    if (!second_lengths_fit(book)) {
        return REFUSAL_LIST_LENGTH;
    }
    if (!second_is_source(spoken->source) || spoken->source == book->ship.source) {
        return REFUSAL_SOURCE;
    }
    if (spoken->repeat > 0) {
        return REFUSAL_REPEAT;
    }
    uint16_t known = record_of(book, spoken->source);
    uint16_t record = known != 0 ? known : record_to_take_over(book);
    if (record == 0) {
        return REFUSAL_NO_RECORD;
    }
    second_announce(&rows, &spoken->said);
    if (second_lies_beyond(&rows)) {
        return REFUSAL_BEYOND;
    }
    enter(&book->records[record - 1], spoken);
    *heard = (struct heard){spoken->source, carry_out(book, record, &rows), record};
    return DONE;
}

/* The offset is there with time-out 0 only; with another one it is not looked at. */
static struct announcement read_announcement(int32_t id, const int32_t *state)
{
    if (id == ID_INCREMENTAL) {
        return (struct announcement){
            .kind = INCREMENTAL,
            .increment = (uint32_t)state[1],
            .slots_code = (uint32_t)state[2],
            .keep = (uint32_t)state[3],
        };
    }
    return (struct announcement){
        .kind = SELF_ORGANISED,
        .time_out = (uint32_t)state[1],
        .offset = (uint32_t)state[2],
    };
}

uint32_t second_hear(struct book *book, const uint8_t *message, size_t message_len, struct heard *heard)
{
    int32_t fields[SECOND_FIELDS_MAX];
    uint32_t count;
    uint32_t number = second_message_read(message, message_len, fields, SECOND_FIELDS_MAX, &count);
    if (number != DONE) {
        return number;
    }
    int32_t id = fields[PLACE_ID];
    const int32_t *position = fields + (id == ID_BASE_STATION ? PLACE_BASE_LONGITUDE : PLACE_LONGITUDE);
    const struct spoken spoken = {
        .base = id == ID_BASE_STATION,
        .repeat = (uint32_t)fields[PLACE_REPEAT],
        .source = (uint32_t)fields[PLACE_SOURCE],
        .longitude = position[0],
        .latitude = position[1],
        .said = read_announcement(id, fields + second_state_place(id)),
    };
    return second_hear_spoken(book, &spoken, heard);
}
