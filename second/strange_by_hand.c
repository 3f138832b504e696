/* strange_by_hand.c - books that no row of calls leads to, worked out by hand: counts that do not belong to the slots,
 * a now out of range, holders without a record, plans and ships that nobody could set, a source in two records. */
#include "book_by_hand.h"
#include "book_case.h"

#define COUNT_OF(list) (sizeof(list) / sizeof(list)[0])

static struct lent lent, before;

/* ---- counts ---- */

/* A station with record 1 is heard. Before that the time 2250 ahead has a holder, and the counts are these. */
struct count_case {
    uint16_t holder;
    uint32_t time_out, offset;
    uint16_t free, tally, other; /* the other station has record 2 */
    uint16_t free_after, tally_after, other_after;
};

static const struct count_case count_cases[] = {
    /* a mark on a free slot */
    {0, 1, 0, 20250, 0, 9, 20249, 1, 9},
    {0, 1, 0, 0, 0, 9, 0, 1, 9},
    {0, 1, 0, 1, 20249, 9, 0, 20250, 9},
    {0, 1, 0, 20251, 20250, 9, 20250, 20250, 9},
    {0, 1, 0, 65535, 20251, 9, 65534, 20251, 9},
    {0, 1, 0, 30000, 65535, 9, 29999, 65535, 9},
    /* a mark on a slot that the station holds: one less, then one more */
    {1, 1, 0, 5, 0, 9, 5, 1, 9},
    {1, 1, 0, 5, 1, 9, 5, 1, 9},
    {1, 1, 0, 5, 20250, 9, 5, 20250, 9},
    {1, 1, 0, 5, 20251, 9, 5, 20250, 9},
    {1, 1, 0, 5, 20252, 9, 5, 20251, 9},
    {1, 1, 0, 5, 65535, 9, 5, 65534, 9},
    /* a mark on another station's slot */
    {2, 1, 0, 5, 3, 0, 5, 4, 0},
    {2, 1, 0, 5, 3, 1, 5, 4, 0},
    {2, 1, 0, 5, 20250, 20250, 5, 20250, 20249},
    {2, 1, 0, 5, 3, 65535, 5, 4, 65534},
    /* a mark on our own slot, and on that of a holder without a record */
    {256, 1, 0, 5, 3, 9, 5, 3, 9},
    {257, 1, 0, 5, 3, 9, 5, 4, 9},
    {65535, 1, 0, 5, 20250, 9, 5, 20250, 9},
    /* freed where the station holds it, and only there */
    {1, 0, 0, 0, 0, 9, 1, 0, 9},
    {1, 0, 0, 20249, 1, 9, 20250, 0, 9},
    {1, 0, 0, 20250, 20251, 9, 20250, 20250, 9},
    {1, 0, 0, 20251, 65535, 9, 20251, 65534, 9},
    {0, 0, 0, 20251, 3, 9, 20251, 3, 9},
    {2, 0, 0, 5, 3, 9, 5, 3, 9},
    {256, 0, 0, 5, 3, 9, 5, 3, 9},
    {257, 0, 0, 5, 3, 9, 5, 3, 9},
    /* freed, then marked by the offset */
    {1, 0, 2250, 20250, 0, 9, 20249, 1, 9},
    {1, 0, 2250, 20249, 20251, 9, 20249, 20250, 9},
    {1, 0, 2250, 0, 1, 9, 0, 1, 9},
    {1, 0, 2250, 30000, 65535, 9, 29999, 65534, 9},
};

static void test_counts_of_hearing(struct report *report)
{
    struct check check = {.name = "counts that do not fit: each step of a mark or a freeing stops by itself"};
    for (size_t i = 0; i < COUNT_OF(count_cases); i++) {
        const struct count_case *one = &count_cases[i];
        bool taken = one->time_out + one->offset > 0 && one->holder != 256;
        bool freed = one->time_out + one->offset == 0 && one->holder == 1;
        lent_new(&lent);
        lent.slots[2250] = one->holder;
        lent.book.channel.free = one->free;
        lent.book.channel.own = 44;
        lent.records[0] = (struct station){500, false, 0, 0, one->tally, 0};
        lent.records[1] = (struct station){600, false, 0, 0, one->other, 0};
        struct outcome outcome = hear_self_organised(&lent, 500, one->time_out, one->offset);
        check_that(&check, outcome.number == DONE && outcome.heard.marks == taken, "marks");
        check_that(&check, lent.slots[2250] == (taken ? 1 : freed ? 0 : one->holder), "holder");
        check_that(&check, lent.book.channel.free == one->free_after && lent.book.channel.own == 44, "free or own");
        check_that(&check, lent.records[0].tally == one->tally_after, "tally");
        check_that(&check, lent.records[1].tally == one->other_after, "tally of the other station");
    }
    check_report(&check, report);
}

static void test_counts_of_pass(struct report *report)
{
    struct check check = {.name = "counts that do not fit: pass, also over a slot that is free already"};
    static const struct {
        uint16_t holder, free, count, free_after, count_after; /* the count is own, and the tally of record 255 */
    } cases[] = {
        {0, 0, 7, 1, 7},         {0, 1, 7, 1, 7},         {0, 20250, 7, 20250, 7},    {0, 20251, 7, 20250, 7},
        {0, 65535, 7, 65534, 7}, {255, 0, 0, 1, 0},       {255, 20250, 1, 20250, 0},  {255, 20251, 65535, 20251, 65534},
        {256, 0, 0, 1, 0},       {256, 20249, 1, 20250, 0}, {256, 20250, 65535, 20250, 65534},
        {257, 0, 7, 1, 7},       {257, 20250, 7, 20250, 7}, {65535, 20249, 7, 20250, 7},
    };
    for (size_t i = 0; i < COUNT_OF(cases); i++) {
        lent_new(&lent);
        lent.slots[0] = cases[i].holder;
        lent.book.channel.free = cases[i].free;
        lent.book.channel.own = cases[i].holder == 255 ? 7 : cases[i].count;
        lent.records[254].tally = cases[i].holder == 256 ? 7 : cases[i].count;
        check_that(&check, second_pass(&lent.book, 1) == DONE && lent.slots[0] == 0, "slot");
        check_that(&check, lent.book.channel.free == cases[i].free_after, "free count");
        check_that(&check, lent.book.channel.own == (cases[i].holder == 255 ? 7 : cases[i].count_after), "own tally");
        check_that(&check, lent.records[254].tally == (cases[i].holder == 256 ? 7 : cases[i].count_after), "tally");
    }
    check_report(&check, report);
}

static void test_counts_of_plan(struct report *report)
{
    struct check check = {.name = "counts that do not fit: plan with three own marks; holders without a record stay"};
    static const struct {
        uint16_t free, own, free_after, own_after;
    } cases[] = {
        {0, 0, 3, 0},         {0, 3, 3, 0},          {20248, 1, 20250, 0},    {20250, 2, 20250, 0},
        {20251, 4, 20251, 1}, {65535, 65535, 65535, 65532}, {100, 20250, 103, 20247},
    };
    for (size_t i = 0; i < COUNT_OF(cases); i++) {
        lent_new(&lent);
        lent.slots[0] = lent.slots[100] = lent.slots[20249] = 256;
        lent.slots[1] = 257;
        lent.slots[20248] = 65535;
        lent.book.channel.free = cases[i].free;
        lent.book.channel.own = cases[i].own;
        check_that(&check, second_plan(&lent.book, 14, 0) == DONE, "refused");
        check_that(&check, lent.slots[0] + lent.slots[100] + lent.slots[20249] == 0, "own marks");
        check_that(&check, lent.slots[1] == 257 && lent.slots[20248] == 65535, "holders without a record");
        check_that(&check, lent.book.channel.free == cases[i].free_after, "free count");
        check_that(&check, lent.book.channel.own == cases[i].own_after, "own tally");
    }
    check_report(&check, report);
}

/* ---- now, plan and ship ---- */

static void test_now(struct report *report)
{
    struct check check = {.name = "a now out of range is read modulo 20,250, and only pass brings it back"};
    static const struct {
        size_t now, place;
    } cases[] = {
        {20250, 0},    {20251, 1},         {40499, 20249},
        {40500, 0},    {65535, 4785},      {4294967295, 3045},
        {SIZE_MAX, SIZE_MAX % 20250}, /* from where a time ahead would run over */
    };
    for (size_t i = 0; i < COUNT_OF(cases); i++) {
        const size_t place = cases[i].place;
        lent_new(&lent);
        lent.book.now = cases[i].now;
        check_that(&check, hear_self_organised(&lent, 500, 1, 0).number == DONE, "refused");
        check_that(&check, lent.slots[(place + 2250) % 20250] == 1 && lent.book.channel.free == 20249, "mark");
        check_that(&check, hear_incremental(&lent, 500, 8191, 7, 0).heard.marks == 3, "block");
        check_that(&check, lent.slots[(place + 16385) % 20250] == 1 && lent.records[0].tally == 4, "end of the block");
        lent.slots[place] = 256;
        lent.book.channel.own = 1;
        check_that(&check, second_plan(&lent.book, 14, 0) == DONE && lent.slots[place] == 0, "plan");
        check_that(&check, second_own(&lent.book, 77, 0, 0) == DONE && second_plan(&lent.book, 31, 0) != DONE, "own");
        check_that(&check, second_pass(&lent.book, 0) == DONE && lent.book.now == cases[i].now, "now is given back");
        lent.slots[place] = 1;
        check_that(&check, second_pass(&lent.book, 1) == DONE && lent.slots[place] == 0, "the present slot");
        check_that(&check, lent.book.now == (place + 1) % 20250, "pass");
    }
    check_report(&check, report);
}

static void test_plan_and_ship(struct report *report)
{
    struct check check = {.name = "a plan or a ship out of range is kept by the other calls, and can be set anew"};
    static const struct plan plans[] = {{0, 0}, {0, 2250}, {31, 0}, {1, 2250}, {65535, 65535}};
    static const struct ship ships[] = {{1000000001, 54600000, 0}, {0xFFFFFFFF, INT32_MIN, INT32_MAX}, {500, 1, 2}};
    for (size_t i = 0; i < COUNT_OF(plans); i++) {
        for (size_t k = 0; k < COUNT_OF(ships); k++) {
            lent_new(&lent);
            lent.book.channel.plan = plans[i];
            lent.book.ship = ships[k];
            uint32_t number = hear_self_organised(&lent, 500, 7, 0).number;
            check_that(&check, number == (ships[k].source == 500 ? REFUSAL_SOURCE : DONE), "the own source as it is");
            check_that(&check, second_pass(&lent.book, 3) == DONE && ship_same(&lent.book.ship, &ships[k]), "ship");
            check_that(&check, lent.book.channel.plan.rate == plans[i].rate
                                   && lent.book.channel.plan.start == plans[i].start, "plan");
            check_that(&check, second_plan(&lent.book, 30, 2249) == DONE && lent.book.channel.plan.rate == 30, "anew");
            check_that(&check, second_own(&lent.book, 8, 0, 0) == DONE && lent.book.ship.source == 8, "own anew");
        }
    }
    check_report(&check, report);
}

/* ---- the register ---- */

static void test_two_records(struct report *report)
{
    struct check check = {.name = "two records with one source: the lower-numbered counts; the other is a stranger"};
    const size_t lower[] = {2250, 4500}, higher[] = {6750};
    lent_new(&lent);
    lent.records[9].source = lent.records[200].source = 500;
    lent_put(&lent, 2250, 201);
    lent_put(&lent, 6750, 201);
    struct outcome outcome = hear_self_organised(&lent, 500, 2, 0);
    check_that(&check, outcome.heard.record == 10, "record");
    check_heard(&check, &lent, outcome, 2, lower, 2, "the lower-numbered");
    check_that(&check, lent_holds_only(&lent, 201, higher, 1) && lent.records[200].tally == 1, "the other");
    check_report(&check, report);
}

static void test_tallies(struct report *report)
{
    struct check check = {.name = "the tally as it stands says whether a record can be taken over, not the slots"};
    const size_t kept[] = {3};
    lent_new(&lent);
    for (size_t i = 0; i < 255; i++) {
        lent.records[i] = (struct station){1000 + (uint32_t)i, false, 0, 0, i == 6 ? 0 : 1, 5};
    }
    lent.slots[3] = lent.slots[4500] = 7;
    struct outcome outcome = hear_self_organised(&lent, 500, 0, 0);
    check_that(&check, outcome.number == DONE && outcome.heard.record == 7 && outcome.heard.marks == 0, "taken over");
    check_that(&check, lent_holds_only(&lent, 7, kept, 1), "slots of the record go with it");
    check_that(&check, lent.records[6].tally == 0 && lent.records[6].hold_off == 0, "tally and hold-off");
    lent.records[6].tally = 1;
    before = lent;
    check_number(&check, &before, &lent, hear_self_organised(&lent, 501, 0, 0).number, REFUSAL_NO_RECORD, "23");
    check_report(&check, report);
}

void strange_books_by_hand(struct report *report)
{
    test_counts_of_hearing(report);
    test_counts_of_pass(report);
    test_counts_of_plan(report);
    test_now(report);
    test_plan_and_ship(report);
    test_two_records(report);
    test_tallies(report);
}
