/* candidates_by_hand.c - which window slots are candidates, worked out by hand: distances, the four that are enough,
 * and ties. The plan has rate 30 and start 100 where nothing else is said: window 0 then reaches from 93 to 107
 * ahead. */
#include "choosing_by_hand.h"
#include "choosing_case.h"

#define COUNT_OF(list) (sizeof(list) / sizeof(list)[0])

enum { RATE = 30, START = 100, FIRST = 93, SLOTS = 15, BASE = 200, A = 1, B = 2, C = 3, D = 4, E = 5 };

static struct lent lent;

/* All window slots barred, whatever follows. */
static void bar_window(void)
{
    lent_new_plan(&lent, RATE, START, 0);
    lent_put_row(&lent, FIRST, SLOTS, BASE);
    lent.records[BASE - 1].base = true;
}

static void put(size_t place, uint16_t holder)
{
    lent_put(&lent, FIRST + place, holder);
}

/* ---- distance ---- */

static void test_distance(struct report *report)
{
    struct check check = {.name = "distance: |lat difference| + |lon difference|, the latter the short way round"};
    static const struct {
        int32_t latitude, longitude, other_latitude, other_longitude;
        uint32_t distance;
    } cases[] = {
        {0, 0, 0, 0, 0},
        {5, 7, 5, 7, 0},
        {100, 0, -100, 0, 200},
        {0, 300, 0, -400, 700},
        {-3, -4, 10, 20, 37},
        {54000000, 0, -54000000, 0, 108000000},
        {0, 108000000, 0, -108000000, 0},
        {0, 107999999, 0, -107999999, 2},
        {0, 108000000, 0, 0, 108000000},
        {0, -108000000, 0, 0, 108000000},
        {0, 54000000, 0, -54000000, 108000000},
        {0, 54000000, 0, -54000001, 107999999},
        {0, 54000001, 0, -54000001, 107999998},
        {54000000, 108000000, -54000000, -108000000, 108000000},
        {54000000, 54000000, -54000000, -54000000, 216000000},
        {-54000000, 108000000, 54000000, 0, 216000000},
    };
    for (size_t i = 0; i < COUNT_OF(cases); i++) {
        int32_t latitude = cases[i].latitude, longitude = cases[i].longitude;
        int32_t other_latitude = cases[i].other_latitude, other_longitude = cases[i].other_longitude;
        uint32_t there = second_distance(latitude, longitude, other_latitude, other_longitude);
        uint32_t back = second_distance(other_latitude, other_longitude, latitude, longitude);
        check_that(&check, there == cases[i].distance && back == there, "distance");
    }
    check_report(&check, report);
}

static void test_nearest_holder(struct report *report)
{
    struct check check = {.name = "a slot's distance is that of the nearest holder of all its times"};
    struct window window;
    for (size_t near_frame = 0; near_frame <= 8; near_frame++) {
        for (uint32_t time_out = 3; time_out <= 7; time_out++) {
            lent_new_plan(&lent, RATE, START, 0);
            lent_station(&lent, A, 900);
            lent_station(&lent, B, -500);
            lent_put(&lent, FIRST, A);
            lent_put(&lent, FIRST + 2250 * 2, A);
            lent_put(&lent, FIRST + 2250 * near_frame, B);
            second_window(&lent.book, 0, time_out, &window);
            check_that(&check, window.slot[0].state == SLOT_AVAILABLE, "state");
            check_that(&check, window.slot[0].distance == (near_frame <= time_out ? 500 : 900), "distance");
        }
    }
    check_report(&check, report);
}

/* ---- four are enough ---- */

/* So many free slots at the window's end, all others held by mobiles, the later the farther. */
static void test_fewer_than_four(struct report *report)
{
    struct check check = {.name = "four free slots or more: only they; fewer: available ones are added up to four"};
    for (size_t free = 0; free <= SLOTS; free++) {
        size_t places[SLOTS], available = SLOTS - free, added = free < 4 ? 4 - free : 0, count = 0;
        lent_new_plan(&lent, RATE, START, 0);
        for (uint16_t i = 0; i < available; i++) {
            lent_station(&lent, (uint16_t)(i + 1), 100 + i);
            put(i, (uint16_t)(i + 1));
        }
        for (size_t i = available - added; i < SLOTS; i++) {
            places[count++] = i;
        }
        check_candidates(&check, &lent, 0, 3, places, count, "free or farthest");
    }
    check_report(&check, report);
}

static void test_no_more(struct report *report)
{
    struct check check = {.name = "fewer than four, and no more available: what there is"};
    const uint16_t holders[] = {HOLDER_NONE, A, B, A, HOLDER_NONE};
    const size_t places[] = {2, 5, 8, 11, 14}, none[] = {0};
    for (size_t count = 0; count <= COUNT_OF(holders); count++) {
        bar_window();
        lent_station(&lent, A, 10);
        lent_station(&lent, B, 20);
        for (size_t i = 0; i < count; i++) {
            put(places[i], holders[i]);
        }
        bool fifth_too_near = count == 5;
        const size_t best[] = {2, 5, 8, 14};
        check_candidates(&check, &lent, 0, 3, count == 0 ? none : fifth_too_near ? best : places,
                         fifth_too_near ? 4 : count, "what there is");
    }
    check_report(&check, report);
}

/* ---- greatest distance first, ties to the earlier ---- */

/* Example 11 with its five slots in each order and at each place that five of seven slots can have. */
static void test_example_11(struct report *report)
{
    struct check check = {.name = "example 11: two free, A at 900 once, B at 500 twice: both free, A's, B's earlier"};
    enum { PLACES = 7 };
    bar_window();
    lent_station(&lent, A, 900);
    lent_station(&lent, B, -500);
    for (unsigned order = 0; order < 4 * 4 * 4 * 4 * 4 * 4 * 4; order++) {
        const uint16_t holders[] = {HOLDER_NONE, A, B, BASE};
        unsigned times[4] = {0, 0, 0, 0};
        size_t candidates[PLACES], count = 0;
        for (unsigned place = 0, rest = order; place < PLACES; place++, rest /= 4) {
            unsigned which = rest % 4;
            times[which]++;
            put(place, holders[which]);
            if (which < 2 || (which == 2 && times[2] == 1)) {
                candidates[count++] = place;
            }
        }
        if (times[0] == 2 && times[1] == 1 && times[2] == 2) {
            check_candidates(&check, &lent, 0, 3, candidates, count, "example 11");
        }
    }
    check_that(&check, check.tried == 630, "not every order");
    check_report(&check, report);
}

/* Window 0 of start 0 has the slots 2243 to 2249 and then 0 to 7: of two slots the later has the lower number. */
static void test_ties_by_time(struct report *report)
{
    struct check check = {.name = "ties go to the earlier in time, not to the lower slot number or the lower record"};
    const size_t first_four[] = {0, 1, 2, 3};
    lent_new_plan(&lent, RATE, 0, 0);
    for (uint16_t i = 0; i < SLOTS; i++) {
        lent_station(&lent, (uint16_t)(255 - i), i % 2 == 0 ? 800 : -800);
        lent_put(&lent, 2243u + i, (uint16_t)(255 - i));
    }
    check_candidates(&check, &lent, 0, 3, first_four, 4, "all as far, across the frame's end");
    lent.book.now = 20250 - 4;
    lent_put_row(&lent, 2247, SLOTS, A);
    lent_station(&lent, A, 800);
    check_candidates(&check, &lent, 0, 3, first_four, 4, "all as far, now in the window");
    check_report(&check, report);
}

static void test_tie_at_the_fourth(struct report *report)
{
    struct check check = {.name = "a tie at the fourth place: the earlier comes in, the later does not"};
    const size_t expected[] = {1, 3, 6, 9};
    bar_window();
    lent_station(&lent, A, 900);
    lent_station(&lent, B, 500);
    lent_station(&lent, C, -500);
    lent_station(&lent, D, 499);
    put(0, D);
    put(1, B);
    put(3, C);
    put(6, A);
    put(9, HOLDER_NONE);
    put(12, B);
    put(14, C);
    check_candidates(&check, &lent, 0, 3, expected, 4, "two places for four as far");
    check_report(&check, report);
}

static void test_farthest_first(struct report *report)
{
    struct check check = {.name = "greatest distance first, wherever it stands; a far and a near holder count as near"};
    static const size_t expected[] = {0, 4, 10, 14};
    bar_window();
    lent_station(&lent, A, 54000000);
    lent_station(&lent, B, 7);
    lent_station(&lent, C, -6);
    lent_station(&lent, D, 5);
    lent_station(&lent, E, 4);
    put(0, D);
    put(4, B);
    put(7, A);
    lent_put(&lent, FIRST + 7 + 2250, E);
    put(10, A);
    put(12, E);
    put(14, C);
    check_candidates(&check, &lent, 0, 3, expected, 4, "the four farthest");
    check_report(&check, report);
}

/* A and B lie on the two sides of the half round: B is nearer by the way across. */
static void test_short_way_round(struct report *report)
{
    struct check check = {.name = "the short way round decides between two stations"};
    const size_t expected[] = {2, 3, 4, 5};
    bar_window();
    lent_station(&lent, A, 0);
    lent_station(&lent, B, 0);
    lent.book.ship.longitude = 107000000;
    lent.records[A - 1].longitude = 50000000;
    lent.records[B - 1].longitude = -107000000;
    put(0, B);
    put(1, B);
    for (size_t place = 2; place <= 5; place++) {
        put(place, A);
    }
    check_candidates(&check, &lent, 0, 3, expected, 4, "57,000,000 is farther than 2,000,000");
    check_report(&check, report);
}

static void test_example_12(struct report *report)
{
    struct check check = {.name = "example 12: no free slot, own position unknown: 33"};
    lent_new_plan(&lent, RATE, START, 0);
    lent_station(&lent, A, 900);
    lent_put_row(&lent, FIRST, SLOTS, A);
    second_own(&lent.book, 77, 54600000, 108600000);
    check_candidates(&check, &lent, 0, 3, NULL, 0, "a candidate");
    check_choose(&check, &lent, 0, 3, 0, REFUSAL_NO_CANDIDATE, "unknown");
    second_own(&lent.book, 77, 1, 1);
    check_choose(&check, &lent, 0, 3, 0, DONE, "known again");
    check_report(&check, report);
}

void candidates_by_hand(struct report *report)
{
    test_distance(report);
    test_nearest_holder(report);
    test_fewer_than_four(report);
    test_no_more(report);
    test_example_11(report);
    test_ties_by_time(report);
    test_tie_at_the_fourth(report);
    test_farthest_first(report);
    test_short_way_round(report);
    test_example_12(report);
}
