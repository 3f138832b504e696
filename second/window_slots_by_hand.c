/* window_slots_by_hand.c - what a window slot is by the times of its set, worked out by hand. The plan has rate 30 and
 * start 100: seen from slot 0, window 0 reaches from 93 to 107 ahead. */
#include "choosing_by_hand.h"
#include "choosing_case.h"

#define COUNT_OF(list) (sizeof(list) / sizeof(list)[0])

enum { RATE = 30, START = 100, FIRST = 93, SLOTS = 15, CENTRE = 7, UNKNOWN = 54600000 };

static struct lent lent;
static struct window window;

static struct window_slot look(size_t place, uint32_t time_out)
{
    second_window(&lent.book, 0, time_out, &window);
    return window.slot[place];
}

static enum slot_state state_of(size_t place, uint32_t time_out)
{
    return look(place, time_out).state;
}

/* ---- the set ---- */

static void test_all_free(struct report *report)
{
    struct check check = {.name = "in a new book with a plan every window slot is free and a candidate"};
    for (uint32_t rate = 1; rate <= 30; rate++) {
        for (uint32_t time_out = 3; time_out <= 7; time_out++) {
            lent_new_plan(&lent, rate, START, 0);
            second_window(&lent.book, rate - 1, time_out, &window);
            check_that(&check, window.candidates == window.slots && window.slots == 2 * (225 / rate) + 1, "candidates");
            for (size_t i = 0; i < window.slots; i++) {
                check_that(&check, window.slot[i].state == SLOT_FREE && window.slot[i].candidate, "a slot");
            }
        }
    }
    check_report(&check, report);
}

/* One mark in one of the nine frames of a window slot. */
static void test_frames_of_the_set(struct report *report)
{
    struct check check = {.name = "the set is the slot and its m later frames: a mark counts in them and in no other"};
    for (size_t place = 0; place < SLOTS; place++) {
        for (size_t frame = 0; frame <= 8; frame++) {
            for (uint32_t time_out = 3; time_out <= 7; time_out++) {
                bool counts = frame <= time_out;
                lent_new_plan(&lent, RATE, START, 0);
                lent_station(&lent, 1, 700);
                lent_put(&lent, FIRST + place + 2250 * frame, HOLDER_OWN);
                check_that(&check, state_of(place, time_out) == (counts ? SLOT_OWN : SLOT_FREE), "own");
                lent_put(&lent, FIRST + place + 2250 * frame, 1);
                check_that(&check, state_of(place, time_out) == (counts ? SLOT_AVAILABLE : SLOT_FREE), "a mobile");
                lent.records[0].base = true;
                check_that(&check, state_of(place, time_out) == (counts ? SLOT_BARRED : SLOT_FREE), "a base");
                check_that(&check, window.candidates == (counts ? 14 : 15), "candidates");
            }
        }
    }
    check_report(&check, report);
}

static void test_own_among_others(struct report *report)
{
    struct check check = {.name = "any own time of the set bars the slot, whatever stands at the others"};
    const uint16_t others[] = {0, 1, 2, 257};
    for (size_t i = 0; i < COUNT_OF(others); i++) {
        for (size_t frame = 0; frame <= 3; frame++) {
            lent_new_plan(&lent, RATE, START, 0);
            lent_station(&lent, 1, 700);
            for (size_t other = 0; other <= 3; other++) {
                lent.slots[FIRST + 2250 * other] = others[i];
            }
            lent.slots[FIRST + 2250 * frame] = HOLDER_OWN;
            check_that(&check, state_of(0, 3) == SLOT_OWN && !window.slot[0].candidate, "own and others");
            check_that(&check, window.candidates == 14, "candidates");
        }
    }
    check_report(&check, report);
}

/* ---- own a frame earlier ---- */

/* Now is the window's slot of this place; the next coming of it is the one meant. An own mark ahead in the present
 * coming, or now, bars the same slot in the next. */
static void test_own_earlier(struct report *report)
{
    struct check check = {.name = "own a frame earlier: now and what is ahead in the present coming of the window"};
    for (size_t present = 0; present < SLOTS; present++) {
        for (size_t own = present; own < SLOTS; own++) {
            lent_new_plan(&lent, RATE, START, FIRST + present);
            lent_put(&lent, own - present, HOLDER_OWN);
            for (size_t place = 0; place < SLOTS; place++) {
                enum slot_state expected = place == own ? SLOT_OWN_EARLIER : SLOT_FREE;
                check_that(&check, state_of(place, 7) == expected, "state");
                check_that(&check, window.slot[place].candidate == (place != own), "candidate");
            }
        }
    }
    check_report(&check, report);
}

/* Less than a frame ahead, the list comes round to 18,000 ahead. */
static void test_no_earlier_slot(struct report *report)
{
    struct check check = {.name = "a slot less than a frame ahead has no earlier one, nor what the list comes to"};
    for (size_t present = 1; present < SLOTS; present++) {
        for (size_t place = 0; place < SLOTS; place++) {
            size_t ahead = 2250 - present + place;
            lent_new_plan(&lent, RATE, START, FIRST + present);
            lent.slots[(lent.book.now + ahead + 18000) % 20250] = HOLDER_OWN;
            check_that(&check, state_of(place, 7) == (ahead >= 2250 ? SLOT_OWN_EARLIER : SLOT_FREE), "round the list");
        }
    }
    check_report(&check, report);
}

static void test_earlier_than_what(struct report *report)
{
    struct check check = {.name = "own a frame earlier comes before free, available and barred, and after own"};
    const uint16_t holders[] = {0, 1, 257, HOLDER_OWN};
    const enum slot_state expected[] = {SLOT_OWN_EARLIER, SLOT_OWN_EARLIER, SLOT_OWN_EARLIER, SLOT_OWN};
    for (size_t i = 0; i < COUNT_OF(holders); i++) {
        lent_new_plan(&lent, RATE, START, FIRST);
        lent_station(&lent, 1, 700);
        lent_put(&lent, 0, HOLDER_OWN);
        lent.slots[FIRST + 2250 * 3] = holders[i];
        check_that(&check, state_of(0, 3) == expected[i] && window.slot[0].distance == 0, "state");
        check_that(&check, !window.slot[0].candidate && window.candidates == 14, "candidate");
    }
    check_report(&check, report);
}

/* ---- available ---- */

struct fact {
    const char *what;
    struct station station;
    int32_t own_latitude, own_longitude;
    bool available;
};

static const struct fact facts[] = {
    {"a mobile at a known position", {5, false, 100, 200, 1, 0}, 0, 0, true},
    {"a base", {5, true, 100, 200, 1, 0}, 0, 0, false},
    {"hold-off 1", {5, false, 100, 200, 1, 1}, 0, 0, false},
    {"hold-off 2250", {5, false, 100, 200, 1, 2250}, 0, 0, false},
    {"hold-off 65535", {5, false, 100, 200, 1, 65535}, 0, 0, false},
    {"the station's limits", {5, false, 54000000, 108000000, 1, 0}, 0, 0, true},
    {"its other limits", {5, false, -54000000, -108000000, 1, 0}, 0, 0, true},
    {"latitude past it", {5, false, 54000001, 0, 1, 0}, 0, 0, false},
    {"latitude below it", {5, false, -54000001, 0, 1, 0}, 0, 0, false},
    {"longitude past it", {5, false, 0, 108000001, 1, 0}, 0, 0, false},
    {"longitude below it", {5, false, 0, -108000001, 1, 0}, 0, 0, false},
    {"the station unknown", {5, false, UNKNOWN, 108600000, 1, 0}, 0, 0, false},
    {"our limits", {5, false, 100, 200, 1, 0}, 54000000, -108000000, true},
    {"we are unknown", {5, false, 100, 200, 1, 0}, UNKNOWN, 108600000, false},
    {"our latitude past it", {5, false, 100, 200, 1, 0}, 54000001, 0, false},
    {"our longitude below it", {5, false, 100, 200, 1, 0}, 0, -108000001, false},
    {"far out of range", {5, false, INT32_MIN, INT32_MIN, 1, 0}, INT32_MAX, INT32_MAX, false},
};

static void test_available(struct report *report)
{
    struct check check = {.name = "available: we are known, and every holder is a mobile, known and not held off"};
    for (size_t i = 0; i < COUNT_OF(facts); i++) {
        for (size_t frame = 0; frame <= 3; frame++) {
            lent_new_plan(&lent, RATE, START, 0);
            lent.book.ship.latitude = facts[i].own_latitude;
            lent.book.ship.longitude = facts[i].own_longitude;
            lent_station(&lent, 1, 50);
            lent_put(&lent, FIRST + CENTRE + 2250 * frame, 2);
            lent.records[1] = facts[i].station;
            enum slot_state expected = facts[i].available ? SLOT_AVAILABLE : SLOT_BARRED;
            check_that(&check, state_of(CENTRE, 3) == expected, facts[i].what);
            lent_put(&lent, FIRST + CENTRE + 2250 * (3 - frame), 1);
            check_that(&check, state_of(CENTRE, 3) == expected, "beside a holder that may be replaced");
        }
    }
    check_report(&check, report);
}

static void test_holders_without_record(struct report *report)
{
    struct check check = {.name = "a holder number without a record counts as a base station"};
    const uint16_t holders[] = {257, 258, 300, 511, 512, 32768, 65535};
    for (size_t i = 0; i < COUNT_OF(holders); i++) {
        for (size_t frame = 0; frame <= 4; frame++) {
            lent_new_plan(&lent, RATE, START, 0);
            lent.slots[FIRST + CENTRE + 2250 * frame] = holders[i];
            check_that(&check, state_of(CENTRE, 3) == (frame <= 3 ? SLOT_BARRED : SLOT_FREE), "state");
        }
    }
    check_report(&check, report);
}

void window_slots_by_hand(struct report *report)
{
    test_all_free(report);
    test_frames_of_the_set(report);
    test_own_among_others(report);
    test_own_earlier(report);
    test_no_earlier_slot(report);
    test_earlier_than_what(report);
    test_available(report);
    test_holders_without_record(report);
}
