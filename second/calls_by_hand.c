/* calls_by_hand.c - a new book, and the calls pass, plan and own, worked out by hand. */
#include "book_by_hand.h"
#include "book_case.h"

#include <string.h>

#define COUNT_OF(list) (sizeof(list) / sizeof(list)[0])

static struct lent lent, before;

/* ---- a new book ---- */

static void test_new(struct report *report)
{
    struct check check = {.name = "a new book holds nothing and knows nothing"};
    const struct station nobody = {0, false, 0, 0, 0, 0};
    const struct ship unknown = {0, 54600000, 108600000};
    memset(&lent, 0x5A, sizeof lent);
    lent_new(&lent);
    for (size_t place = 0; place < 20250; place++) {
        check_that(&check, lent.slots[place] == 0, "a slot is held");
    }
    for (size_t i = 0; i < 255; i++) {
        check_that(&check, station_same(&lent.records[i], &nobody), "a record is not all 0 and mobile");
    }
    check_that(&check, lent.book.slot_count == 20250 && lent.book.record_count == 255, "lengths");
    check_that(&check, lent.book.channel.free == 20250 && lent.book.channel.own == 0, "counts");
    check_that(&check, lent.book.channel.plan.rate == 0 && lent.book.channel.plan.start == 0, "there is a plan");
    check_that(&check, ship_same(&lent.book.ship, &unknown), "own source and position");
    check_that(&check, lent.book.now == 0, "now");
    check_report(&check, report);
}

/* ---- pass ---- */

static void test_pass_frees(struct report *report)
{
    struct check check = {.name = "pass: the present slot becomes free, whoever holds it, and no other"};
    const uint16_t holders[] = {0, 1, 2, 255, 256};
    for (size_t i = 0; i < COUNT_OF(holders); i++) {
        lent_new(&lent);
        lent_put(&lent, 0, holders[i]);
        lent_put(&lent, 1, 7);
        lent_put(&lent, 20249, 8);
        check_that(&check, second_pass(&lent.book, 1) == DONE, "refused");
        check_that(&check, lent.slots[0] == 0 && lent.slots[1] == 7 && lent.slots[20249] == 8, "slots");
        check_that(&check, lent.book.channel.free == 20248 && lent.book.channel.own == 0, "free or own count");
        check_that(&check, lent.records[6].tally == 1 && lent.records[7].tally == 1, "tallies of the others");
        check_that(&check, lent.records[0].tally + lent.records[1].tally + lent.records[254].tally == 0, "tally");
    }
    check_report(&check, report);
}

static void test_pass_moves(struct report *report)
{
    struct check check = {.name = "pass: now moves on by one, round the list, any number of passes"};
    static const struct {
        size_t now;
        uint32_t passes;
        size_t after;
    } moves[] = {
        {0, 0, 0},         {0, 1, 1},         {20248, 1, 20249},  {20249, 1, 0},   {20249, 2, 1},
        {5, 20250, 5},     {5, 20251, 6},     {0, 65535, 4785},   {7, 40500, 7},   {20250, 1, 1},
        {20250, 0, 20250}, {65535, 0, 65535}, {40505, 1, 6},      {20251, 3, 4},   {4294967295, 1, 3046},
    };
    for (size_t i = 0; i < COUNT_OF(moves); i++) {
        lent_new(&lent);
        lent.book.now = moves[i].now;
        check_that(&check, second_pass(&lent.book, moves[i].passes) == DONE, "refused");
        check_that(&check, lent.book.now == moves[i].after, "now");
    }
    check_report(&check, report);
}

static void fill_slots(uint16_t holder)
{
    lent_new(&lent);
    for (size_t ahead = 0; ahead < 20250; ahead++) {
        lent_put(&lent, ahead, holder);
    }
}

static void test_many_passes(struct report *report)
{
    struct check check = {.name = "pass: n passes free the next n slots, the present one first"};
    const uint32_t passes[] = {0, 1, 2, 2250, 20249, 20250, 20251, 65535};
    for (size_t i = 0; i < COUNT_OF(passes); i++) {
        size_t freed = passes[i] < 20250 ? passes[i] : 20250;
        fill_slots(9);
        lent.book.now = 20240;
        second_pass(&lent.book, passes[i]);
        for (size_t k = 0; k < 20250; k++) {
            check_that(&check, lent.slots[(20240 + k) % 20250] == (k < freed ? 0 : 9), "slots");
        }
        check_that(&check, lent.records[8].tally == 20250 - freed && lent.book.channel.free == freed, "counts");
    }
    check_report(&check, report);
}

static void test_hold_offs(struct report *report)
{
    struct check check = {.name = "pass: each hold-off above 0 falls by 1; 2250 is over after exactly 2250 passes"};
    static const uint16_t hold_offs[] = {0, 1, 2, 2249, 2250, 2251, 65535};
    static const uint32_t passes[] = {0, 1, 2, 2249, 2250, 65535, 65536};
    for (size_t i = 0; i < COUNT_OF(hold_offs); i++) {
        for (size_t k = 0; k < COUNT_OF(passes); k++) {
            uint32_t left = hold_offs[i] > passes[k] ? hold_offs[i] - passes[k] : 0;
            lent_new(&lent);
            lent.records[0].hold_off = lent.records[254].hold_off = hold_offs[i];
            second_pass(&lent.book, passes[k]);
            check_that(&check, lent.records[0].hold_off == left && lent.records[254].hold_off == left, "hold-off");
            check_that(&check, lent.records[1].hold_off == 0, "a hold-off of 0");
        }
    }
    lent_new(&lent);
    lent.records[4].hold_off = 2250;
    for (unsigned pass = 1; pass <= 2250; pass++) {
        second_pass(&lent.book, 1);
        check_that(&check, (lent.records[4].hold_off == 0) == (pass == 2250), "over too early or too late");
    }
    check_report(&check, report);
}

/* ---- plan ---- */

static void put_marks(void)
{
    const size_t own[] = {0, 1, 2250, 9000, 20249};
    lent_new(&lent);
    lent.book.now = 20000;
    for (size_t i = 0; i < COUNT_OF(own); i++) {
        lent_put(&lent, own[i], 256);
    }
    lent_put(&lent, 2, 1);
    lent_put(&lent, 249, 255);
}

static void check_released(struct check *check)
{
    const size_t first[] = {2}, last[] = {249};
    check_that(check, lent_holds_only(&lent, 256, NULL, 0) && lent.book.channel.own == 0, "an own mark is left");
    check_that(check, lent_holds_only(&lent, 1, first, 1) && lent_holds_only(&lent, 255, last, 1), "another's mark");
    check_that(check, lent.book.channel.free == 20248, "free count");
    check_that(check, lent.records[0].tally == 1 && lent.records[254].tally == 1, "tally");
    check_that(check, lent.book.now == 20000, "now");
}

static void test_plan(struct report *report)
{
    struct check check = {.name = "plan: all own marks are released, the present one too, also by the same plan"};
    static const struct plan plans[] = {{14, 0}, {1, 2249}, {30, 0}, {30, 2249}};
    for (size_t i = 0; i < COUNT_OF(plans); i++) {
        put_marks();
        for (unsigned turn = 0; turn < 2; turn++) {
            check_that(&check, second_plan(&lent.book, plans[i].rate, plans[i].start) == DONE, "refused");
            check_released(&check);
            check_that(&check, lent.book.channel.plan.rate == plans[i].rate, "rate");
            check_that(&check, lent.book.channel.plan.start == plans[i].start, "start");
            lent_put(&lent, 0, 256);
            lent_put(&lent, 17, 256);
        }
    }
    check_report(&check, report);
}

/* ---- own ---- */

/* Own is to change the ship alone. */
static void test_own(struct report *report)
{
    struct check check = {.name = "own: source and position are taken, and nothing else changes"};
    static const struct ship ships[] = {
        {1, 0, 0}, {999999999, 54000000, 108000000}, {211000000, -54000000, -108000000}, {5, 54600000, 108600000},
    };
    for (size_t i = 0; i < COUNT_OF(ships); i++) {
        put_marks();
        lent.records[3].source = ships[i].source;
        lent.records[3].hold_off = 77;
        lent.book.channel.plan = (struct plan){14, 5};
        before = lent;
        before.book.ship = ships[i];
        uint32_t number = second_own(&lent.book, ships[i].source, ships[i].latitude, ships[i].longitude);
        check_that(&check, number == DONE && lent_same(&before, &lent), "own");
    }
    check_report(&check, report);
}

static void test_own_in_register(struct report *report)
{
    struct check check = {.name = "own: a source that has a record; the record stays, and hearing it gives 21"};
    const size_t frames[] = {2250, 4500};
    lent_new(&lent);
    hear_self_organised(&lent, 300, 2, 0);
    check_that(&check, second_own(&lent.book, 300, 0, 0) == DONE, "refused");
    check_that(&check, lent_holds_only(&lent, 1, frames, 2) && lent.records[0].source == 300, "record");
    before = lent;
    check_number(&check, &before, &lent, hear_self_organised(&lent, 300, 7, 0).number, REFUSAL_SOURCE, "hearing");
    check_that(&check, second_own(&lent.book, 301, 0, 0) == DONE, "refused again");
    check_that(&check, hear_self_organised(&lent, 300, 7, 0).number == DONE, "no longer our own");
    check_report(&check, report);
}

void calls_by_hand(struct report *report)
{
    test_new(report);
    test_pass_frees(report);
    test_pass_moves(report);
    test_many_passes(report);
    test_hold_offs(report);
    test_plan(report);
    test_own(report);
    test_own_in_register(report);
}
