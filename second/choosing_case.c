/* choosing_case.c - books with a plan, stations at a distance, and answers that can be compared. */
#include "choosing_case.h"

enum { OWN_SOURCE = 900000000, HOUR = 23, MINUTE = 59 };

const struct chosen chosen_nothing = {0xFFFFFFFF, 0xFFFFFFFF, 0xFFFFFFFF, 0xFFFFFFFF};
const struct reported reported_nothing = {0xFFFFFFFF, 0xFFFFFFFF, 0xFFFFFFFF, 0xFFFFFFFF,
                                          0xFFFFFFFF, 0xFFFFFFFF, 0xFFFFFFFF};

static struct lent before;

/* ---- books ---- */

void lent_new_plan(struct lent *lent, uint32_t rate, uint32_t start, size_t now)
{
    lent_new(lent);
    lent->book.now = now;
    second_plan(&lent->book, rate, start);
    second_own(&lent->book, OWN_SOURCE, 0, 0);
}

void lent_station(struct lent *lent, uint16_t record, int32_t latitude)
{
    struct station *station = &lent->records[record - 1];
    *station = (struct station){1000u + record, false, latitude, 0, station->tally, 0};
}

void lent_put_row(struct lent *lent, size_t first, size_t slots, uint16_t holder)
{
    for (size_t ahead = first; ahead < first + slots; ahead++) {
        lent_put(lent, ahead, holder);
    }
}

/* ---- answers ---- */

bool chosen_same(const struct chosen *one, const struct chosen *other)
{
    return one->distance == other->distance && one->slot_number == other->slot_number
        && one->candidates == other->candidates && one->replaced == other->replaced;
}

bool reported_same(const struct reported *one, const struct reported *other)
{
    return one->time_out == other->time_out && one->offset == other->offset && one->hour == other->hour
        && one->minute == other->minute && one->unused == other->unused && one->slot_number == other->slot_number
        && one->stations == other->stations;
}

void check_choose(struct check *check, struct lent *lent, uint32_t k, uint32_t time_out, uint32_t draw,
                  uint32_t expected, const char *what)
{
    struct chosen chosen = chosen_nothing;
    before = *lent;
    uint32_t number = second_choose(&lent->book, k, time_out, draw, &chosen);
    check_number(check, &before, lent, number, expected, what);
    check_that(check, chosen_same(&chosen, &chosen_nothing) == (number != DONE), "the answer of a refusal");
}

void check_reporting(struct check *check, struct lent *lent, uint32_t hour, uint32_t minute, uint32_t expected,
                     const char *what)
{
    struct reported reported = reported_nothing;
    before = *lent;
    uint32_t number = second_report(&lent->book, hour, minute, &reported);
    check_that(check, number == expected && lent_same(&before, lent), what);
    check_that(check, reported_same(&reported, &reported_nothing) == (number != DONE), "the answer of a refusal");
}

void check_chosen(struct check *check, struct lent *lent, uint32_t k, uint32_t time_out, uint32_t draw,
                  struct chosen expected, const char *what)
{
    struct chosen chosen = chosen_nothing;
    uint32_t number = second_choose(&lent->book, k, time_out, draw, &chosen);
    check_that(check, number == DONE && chosen_same(&chosen, &expected), what);
}

void check_reported(struct check *check, const struct lent *lent, struct reported expected, const char *what)
{
    struct reported reported = reported_nothing;
    uint32_t number = second_report(&lent->book, HOUR, MINUTE, &reported);
    check_that(check, number == DONE && reported_same(&reported, &expected), what);
}

void check_candidates(struct check *check, const struct lent *lent, uint32_t k, uint32_t time_out,
                      const size_t *places, size_t count, const char *what)
{
    struct window window;
    size_t found = 0;
    second_window(&lent->book, k, time_out, &window);
    bool good = window.candidates == count;
    for (size_t i = 0; i < window.slots; i++) {
        bool expected = found < count && places[found] == i;
        good = good && window.slot[i].candidate == expected;
        found += expected;
    }
    check_that(check, good && found == count, what);
}
