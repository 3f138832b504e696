/* book_case.c - books with their lists, messages for them, and counted checks. */
#include "book_case.h"

#include <string.h>

enum { PAST_SLOTS = 0xABCD, PAST_RECORDS = 0xABCDEF };

const struct heard heard_nothing = {0xFFFFFFFF, 0xFFFFFFFF, 0xFFFF};

/* ---- a book with its lists ---- */

void lent_new(struct lent *lent)
{
    lent->slots[SECOND_SLOTS] = PAST_SLOTS;
    lent->records[SECOND_RECORDS] = (struct station){.source = PAST_RECORDS};
    second_new(&lent->book, lent->slots, lent->records);
}

bool station_same(const struct station *one, const struct station *other)
{
    return one->source == other->source && one->base == other->base && one->latitude == other->latitude
        && one->longitude == other->longitude && one->tally == other->tally && one->hold_off == other->hold_off;
}

bool ship_same(const struct ship *one, const struct ship *other)
{
    return one->source == other->source && one->latitude == other->latitude && one->longitude == other->longitude;
}

static bool channel_same(const struct channel *one, const struct channel *other)
{
    return one->free == other->free && one->own == other->own && one->plan.rate == other->plan.rate
        && one->plan.start == other->plan.start;
}

/* Which lists are lent is not compared: a copy has lists of its own. */
static bool book_same(const struct book *one, const struct book *other)
{
    return one->slot_count == other->slot_count && one->record_count == other->record_count
        && channel_same(&one->channel, &other->channel) && ship_same(&one->ship, &other->ship)
        && one->now == other->now;
}

bool lent_same(const struct lent *one, const struct lent *other)
{
    if (!book_same(&one->book, &other->book) || memcmp(one->slots, other->slots, sizeof one->slots) != 0) {
        return false;
    }
    for (size_t i = 0; i <= SECOND_RECORDS; i++) {
        if (!station_same(&one->records[i], &other->records[i])) {
            return false;
        }
    }
    return true;
}

static void count_holder(struct lent *lent, uint16_t holder, int step)
{
    if (holder == HOLDER_NONE) {
        lent->book.channel.free = (uint16_t)(lent->book.channel.free + step);
    } else if (holder == HOLDER_OWN) {
        lent->book.channel.own = (uint16_t)(lent->book.channel.own + step);
    } else {
        lent->records[holder - 1].tally = (uint16_t)(lent->records[holder - 1].tally + step);
    }
}

void lent_put(struct lent *lent, size_t ahead, uint16_t holder)
{
    uint16_t *slot = &lent->slots[(lent->book.now + ahead) % SECOND_SLOTS];
    count_holder(lent, *slot, -1);
    count_holder(lent, holder, 1);
    *slot = holder;
}

void lent_fill_register(struct lent *lent, size_t left_empty)
{
    lent_new(lent);
    for (uint16_t record = 1; record <= SECOND_RECORDS; record++) {
        lent->records[record - 1].source = 1000u + record;
        if (record > left_empty) {
            lent_put(lent, 17000u + record, record);
        }
    }
}

uint16_t lent_holder(const struct lent *lent, size_t ahead)
{
    return lent->slots[(lent->book.now % SECOND_SLOTS + ahead) % SECOND_SLOTS];
}

bool lent_holds_only(const struct lent *lent, uint16_t holder, const size_t *aheads, size_t count)
{
    size_t found = 0;
    for (size_t ahead = 0; ahead < SECOND_SLOTS; ahead++) {
        found += lent_holder(lent, ahead) == holder;
    }
    for (size_t i = 0; i < count; i++) {
        if (lent_holder(lent, aheads[i]) != holder) {
            return false;
        }
    }
    return found == count;
}

/* ---- messages ---- */

static void put_state(uint32_t id, const struct announcement *said, int32_t *state)
{
    int32_t offset = (int32_t)said->offset;
    if (id == ID_INCREMENTAL) {
        state[1] = (int32_t)said->increment;
        state[2] = (int32_t)said->slots_code;
        state[3] = (int32_t)said->keep;
        return;
    }
    state[1] = (int32_t)said->time_out;
    if (said->time_out != 1) {
        state[2] = offset;
        return;
    }
    state[2] = offset >> 9;
    state[3] = offset >> 2 & 127;
    state[4] = offset & 3;
}

/* An id that is none of ours is put over that of a message 1. */
void speak(uint32_t id, const struct spoken *spoken, uint8_t message[SECOND_MESSAGE_BYTES])
{
    bool ours = id >= ID_FIRST && id < IDS_END;
    int32_t fields[SECOND_FIELDS_MAX] = {ours ? (int32_t)id : ID_FIRST, (int32_t)spoken->repeat,
                                         (int32_t)spoken->source};
    fields[id == ID_BASE_STATION ? 10 : 7] = spoken->longitude;
    fields[id == ID_BASE_STATION ? 11 : 8] = spoken->latitude;
    put_state(id, &spoken->said, fields + (id == ID_BASE_STATION ? 16 : 15));
    memset(message, 0, SECOND_MESSAGE_BYTES);
    second_message_write(fields, SECOND_FIELDS_MAX, message, SECOND_MESSAGE_BYTES);
    message[0] = (uint8_t)(id << 2 | (message[0] & 3));
}

bool heard_same(const struct heard *one, const struct heard *other)
{
    return one->source == other->source && one->marks == other->marks && one->record == other->record;
}

struct outcome lent_hear(struct lent *lent, uint32_t id, const struct spoken *spoken)
{
    struct outcome outcome = {.heard = heard_nothing};
    uint8_t message[SECOND_MESSAGE_BYTES];
    speak(id, spoken, message);
    outcome.number = second_hear(&lent->book, message, sizeof message, &outcome.heard);
    return outcome;
}

struct outcome hear_self_organised(struct lent *lent, uint32_t source, uint32_t time_out, uint32_t offset)
{
    const struct spoken spoken = {
        .source = source,
        .said = {.kind = SELF_ORGANISED, .time_out = time_out, .offset = offset},
    };
    return lent_hear(lent, 1, &spoken);
}

struct outcome hear_incremental(struct lent *lent, uint32_t source, uint32_t increment, uint32_t slots_code,
                                uint32_t keep)
{
    const struct spoken spoken = {
        .source = source,
        .said = {.kind = INCREMENTAL, .increment = increment, .slots_code = slots_code, .keep = keep},
    };
    return lent_hear(lent, 3, &spoken);
}

/* ---- counted checks ---- */

void check_that(struct check *check, bool good, const char *what)
{
    check->tried++;
    if (good) {
        return;
    }
    check->wrong++;
    if (check->first_wrong == NULL) {
        check->first_wrong = what;
    }
}

void check_report(const struct check *check, struct report *report)
{
    struct text line = {.len = 0};
    text_add(&line, "%s: ", check->name);
    text_add_count(&line, check->tried);
    text_add(&line, " checks, ");
    text_add_count(&line, check->wrong);
    text_add(&line, " wrong");
    if (check->wrong > 0) {
        text_add(&line, "; the first: %s", check->first_wrong);
    }
    report_line(report, check->tried > 0 && check->wrong == 0, &line);
}

void check_heard(struct check *check, const struct lent *lent, struct outcome outcome, uint32_t marks,
                 const size_t *aheads, size_t count, const char *what)
{
    bool heard = outcome.number == DONE && outcome.heard.marks == marks;
    check_that(check, heard && lent_holds_only(lent, outcome.heard.record, aheads, count)
                          && lent->records[outcome.heard.record - 1].tally == count, what);
}

void check_number(struct check *check, const struct lent *before, const struct lent *after, uint32_t number,
                  uint32_t expected, const char *what)
{
    check_that(check, number == expected && (number == DONE || lent_same(before, after)), what);
}
