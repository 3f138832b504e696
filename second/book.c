/* book.c - the slot book of the second program: its counts, and the calls pass, plan and own.
 * Slow on purpose: each function is one sentence of the paper, so that it can be checked by eye. */
#include "book.h"

enum { RATE_MAX = 30, LATITUDE_MAX = 54000000, LONGITUDE_MAX = 108000000 };

/* ---- a new book ---- */

void second_new(struct book *book, uint16_t slots[SECOND_SLOTS], struct station records[SECOND_RECORDS])
{
    for (size_t place = 0; place < SECOND_SLOTS; place++) {
        slots[place] = HOLDER_NONE;
    }
    for (size_t i = 0; i < SECOND_RECORDS; i++) {
        records[i] = (struct station){.base = false};
    }
    *book = (struct book){
        .slots = slots,
        .slot_count = SECOND_SLOTS,
        .records = records,
        .record_count = SECOND_RECORDS,
        .channel = {.free = SECOND_SLOTS, .own = 0, .plan = {0, 0}},
        .ship = {0, SECOND_UNKNOWN_LATITUDE, SECOND_UNKNOWN_LONGITUDE},
        .now = 0,
    };
}

/* ---- what the calls share ---- */

bool second_lengths_fit(const struct book *book)
{
    return book->slot_count == SECOND_SLOTS && book->record_count == SECOND_RECORDS;
}

bool second_is_source(uint32_t source)
{
    return source >= 1 && source <= SECOND_SOURCE_MAX;
}

bool second_is_known(int32_t latitude, int32_t longitude)
{
    return latitude >= -LATITUDE_MAX && latitude <= LATITUDE_MAX && longitude >= -LONGITUDE_MAX
        && longitude <= LONGITUDE_MAX;
}

bool second_is_plan(uint32_t rate, uint32_t start)
{
    return rate >= 1 && rate <= RATE_MAX && start < SECOND_FRAME;
}

/* A now out of range is taken modulo its range first, so that nothing runs over. */
size_t second_place(const struct book *book, size_t ahead)
{
    return (book->now % SECOND_SLOTS + ahead) % SECOND_SLOTS;
}

/* ---- counts ---- */

/* Each step stops by itself; one that would be no step from a number out of range leaves that number. */
static void step_up(uint16_t *count)
{
    if (*count < SECOND_SLOTS) {
        (*count)++;
    }
}

static void step_down(uint16_t *count)
{
    if (*count > 0) {
        (*count)--;
    }
}

/* Where the slot times of a holder are counted. A holder without a record is counted nowhere: NULL. */
static uint16_t *count_of(struct book *book, uint16_t holder)
{
    if (holder == HOLDER_NONE) {
        return &book->channel.free;
    }
    if (holder == HOLDER_OWN) {
        return &book->channel.own;
    }
    return holder <= SECOND_RECORDS ? &book->records[holder - 1].tally : NULL;
}

void second_hand_over(struct book *book, size_t place, uint16_t holder)
{
    uint16_t *old_count = count_of(book, book->slots[place]);
    uint16_t *new_count = count_of(book, holder);
    if (old_count != NULL) {
        step_down(old_count);
    }
    if (new_count != NULL) {
        step_up(new_count);
    }
    book->slots[place] = holder;
}

/* ---- pass ---- */

static void pass_one(struct book *book)
{
    second_hand_over(book, second_place(book, 0), HOLDER_NONE);
    book->now = second_place(book, 1);
}

/* Hold-offs have nothing to do with the slots, so they fall by all passes at once. */
static void lower_hold_off(struct station *station, uint32_t passes)
{
    station->hold_off = station->hold_off > passes ? (uint16_t)(station->hold_off - passes) : 0;
}

uint32_t second_pass(struct book *book, uint32_t passes)
{
    if (!second_lengths_fit(book)) {
        return REFUSAL_LIST_LENGTH;
    }
    for (uint32_t i = 0; i < passes; i++) {
        pass_one(book);
    }
    for (size_t i = 0; i < SECOND_RECORDS; i++) {
        lower_hold_off(&book->records[i], passes);
    }
    return DONE;
}

/* ---- plan and own ---- */

uint32_t second_plan(struct book *book, uint32_t rate, uint32_t start)
{
    if (!second_lengths_fit(book)) {
        return REFUSAL_LIST_LENGTH;
    }
    if (!second_is_plan(rate, start)) {
        return REFUSAL_RANGE;
    }
    for (size_t place = 0; place < SECOND_SLOTS; place++) {
        if (book->slots[place] == HOLDER_OWN) {
            second_hand_over(book, place, HOLDER_NONE);
        }
    }
    book->channel.plan = (struct plan){(uint16_t)rate, (uint16_t)start};
    return DONE;
}

/* Unknown is one position only: half of it does not make one unknown. */
uint32_t second_own(struct book *book, uint32_t source, int32_t latitude, int32_t longitude)
{
    bool unknown = latitude == SECOND_UNKNOWN_LATITUDE && longitude == SECOND_UNKNOWN_LONGITUDE;
    if (!second_is_source(source)) {
        return REFUSAL_SOURCE;
    }
    if (!unknown && !second_is_known(latitude, longitude)) {
        return REFUSAL_RANGE;
    }
    book->ship = (struct ship){source, latitude, longitude};
    return DONE;
}
