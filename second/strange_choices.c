/* strange_choices.c - choosing on books full of random numbers. What has to come out is worked out step by step from
 * the rules for such books, by places of the list and by ranks. */
#include "choosing_by_hand.h"
#include "occurrences.h"
#include "strange_book.h"

enum { BOOKS = 3000 };

/* What has to occur, and the numbers given back. */
static unsigned long numbers[NUMBERS_END], reuses, own_earlier, without_record, now_out_of_range, counts_stopped;

/* ---- candidates ---- */

static bool is_known(int32_t latitude, int32_t longitude)
{
    return latitude <= 54000000 && latitude >= -54000000 && longitude <= 108000000 && longitude >= -108000000;
}

/* The holder's distance, or -1 where it may not be replaced. */
static int64_t distance_of(uint16_t holder)
{
    const struct ship *ship = &strange_expected.book.ship;
    if (holder > 255) {
        without_record++;
        return -1;
    }
    const struct station *station = &strange_expected.records[holder - 1];
    if (station->base || station->hold_off != 0 || !is_known(station->latitude, station->longitude)
        || !is_known(ship->latitude, ship->longitude)) {
        return -1;
    }
    int64_t north = (int64_t)station->latitude - ship->latitude, east = (int64_t)station->longitude - ship->longitude;
    north = north < 0 ? -north : north;
    east = east < 0 ? -east : east;
    return north + (east > 108000000 ? 216000000 - east : east);
}

/* What a slot is worth: -1 is no candidate, FREE more than any distance. */
static const int64_t FREE = INT64_MAX;

static int64_t worth_of(size_t ahead, uint32_t time_out)
{
    int64_t worth = FREE;
    if (ahead >= 2250 && *strange_holder(ahead - 2250) == HOLDER_OWN) {
        own_earlier++;
        return -1;
    }
    for (size_t frame = 0; frame <= time_out; frame++) {
        uint16_t holder = *strange_holder(ahead + 2250 * frame);
        int64_t distance = holder == HOLDER_NONE ? FREE : holder == HOLDER_OWN ? -1 : distance_of(holder);
        worth = distance < worth ? distance : worth;
    }
    return worth;
}

/* A free slot is a candidate; an available one where fewer than four are free, farther, or as far and earlier. */
static bool is_candidate(const int64_t *worth, size_t slots, size_t place)
{
    size_t before = 0;
    for (size_t i = 0; i < slots; i++) {
        before += worth[i] > worth[place] || (worth[i] == worth[place] && i < place);
    }
    return worth[place] == FREE || (worth[place] >= 0 && before < 4);
}

/* ---- choosing ---- */

static void expect_mark(uint16_t *slot)
{
    uint16_t *own = &strange_expected.book.channel.own, *free = &strange_expected.book.channel.free;
    uint16_t *count = *slot == HOLDER_NONE ? free : &strange_expected.records[*slot - 1].tally;
    counts_stopped += *count == 0 || *own >= 20250;
    *count -= *count > 0 ? 1 : 0;
    *own += *own < 20250 ? 1 : 0;
    if (*slot != HOLDER_NONE) {
        strange_expected.records[*slot - 1].hold_off = 2250;
        reuses++;
    }
    *slot = HOLDER_OWN;
}

static size_t find_candidates(size_t first, size_t slots, uint32_t time_out, size_t candidates[SECOND_WINDOW_MAX])
{
    int64_t worth[SECOND_WINDOW_MAX];
    size_t count = 0;
    for (size_t i = 0; i < slots; i++) {
        worth[i] = worth_of(first + i, time_out);
    }
    for (size_t i = 0; i < slots; i++) {
        if (is_candidate(worth, slots, i)) {
            candidates[count++] = first + i;
        }
    }
    return count;
}

static uint32_t expect_choice(uint32_t k, uint32_t time_out, uint32_t draw, struct chosen *chosen)
{
    size_t candidates[SECOND_WINDOW_MAX], first = 1, owns = 0;
    if (strange_has_no_plan()) {
        return 31;
    }
    if (k >= strange_expected.book.channel.plan.rate || time_out < 3 || time_out > 7 || draw > 65535) {
        return 30;
    }
    size_t reach = 225u / strange_expected.book.channel.plan.rate, slots = 2 * reach + 1;
    while (!strange_is_at(first, k, -(long)reach)) {
        first++;
    }
    for (size_t i = 0; i < slots; i++) {
        owns += *strange_holder(first + i) == HOLDER_OWN;
    }
    size_t count = find_candidates(first, slots, time_out, candidates);
    if (owns > 0 || count == 0) {
        return owns > 0 ? 32 : 33;
    }
    if (draw >= 65536 - 65536 % count) {
        return 34;
    }
    size_t ahead = candidates[draw % count];
    unsigned long reuses_before = reuses;
    for (size_t frame = 0; frame <= time_out; frame++) {
        expect_mark(strange_holder(ahead + 2250 * frame));
    }
    chosen->distance = (uint32_t)ahead;
    chosen->slot_number = (uint32_t)((strange_expected.book.now % 20250 + ahead) % 2250);
    chosen->candidates = (uint32_t)count;
    chosen->replaced = (uint32_t)(reuses - reuses_before);
    return 0;
}

static void try_choose(struct check *check)
{
    struct chosen chosen = chosen_nothing, expected_chosen = chosen_nothing;
    uint32_t rate = strange.book.channel.plan.rate;
    uint32_t k = strange_below(30) == 0 || rate == 0 ? rate : strange_below(rate);
    uint32_t time_out = strange_below(30) == 0 ? strange_below(10) : 3 + strange_below(5);
    uint32_t draw = strange_below(30) == 0 ? 65536 : strange_below(6) == 0 ? 65535 : strange_below(65536);
    strange_expected = strange;
    uint32_t number = expect_choice(k, time_out, draw, &expected_chosen);
    uint32_t given = second_choose(&strange.book, k, time_out, draw, &chosen);
    check_that(check, given == number, "number");
    check_that(check, chosen_same(&chosen, &expected_chosen), "answer");
    check_that(check, lent_same(&strange_expected, &strange), "what the call leaves");
    numbers[given < NUMBERS_END ? given : DONE]++;
}

static void report_what_occurred(struct report *report)
{
    static const struct call_numbers choose = {"choose on such books", {0, 31, 30, 32, 33, 34}, 6};
    report_call_numbers(report, &choose, numbers);
    report_occurrence(report, "on such books, marks replaced", reuses);
    report_occurrence(report, "on such books, a slot own a frame earlier", own_earlier);
    report_occurrence(report, "on such books, a holder without a record in a window", without_record);
    report_occurrence(report, "on such books, a now out of range", now_out_of_range);
    report_occurrence(report, "on such books, a count that stops", counts_stopped);
}

void strange_choices_at_random(struct report *report)
{
    struct check check = {.name = "choose on books full of random numbers"};
    for (size_t i = 0; i < BOOKS; i++) {
        strange_make();
        now_out_of_range += strange.book.now >= SECOND_SLOTS;
        try_choose(&check);
        try_choose(&check);
    }
    check_report(&check, report);
    report_what_occurred(report);
}
