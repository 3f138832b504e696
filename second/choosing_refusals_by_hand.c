/* choosing_refusals_by_hand.c - each refusal of choosing at its limit and one past it, and which comes first. The plan
 * has rate 30 and start 100 where nothing else is said: window 0 then reaches from 93 to 107 ahead. */
#include "choosing_by_hand.h"
#include "choosing_case.h"

#define COUNT_OF(list) (sizeof(list) / sizeof(list)[0])

enum { RATE = 30, START = 100, FIRST = 93, SLOTS = 15, BASE = 200 };

static struct lent lent;

static void bar(size_t first, size_t slots)
{
    lent_put_row(&lent, first, slots, BASE);
    lent.records[BASE - 1].base = true;
}

static void test_lengths(struct report *report)
{
    struct check check = {.name = "choosing 20: book or register of another length"};
    const size_t slot_counts[] = {0, 1, 2250, 20249, 20251, 20250 + 65536, (size_t)-1};
    const size_t record_counts[] = {0, 1, 254, 256, 255 + 65536, (size_t)-1};
    lent_new_plan(&lent, RATE, START, 0);
    for (size_t i = 0; i < COUNT_OF(slot_counts); i++) {
        lent.book.slot_count = slot_counts[i];
        check_choose(&check, &lent, 0, 3, 0, REFUSAL_LIST_LENGTH, "slots");
    }
    lent.book.slot_count = 20250;
    for (size_t i = 0; i < COUNT_OF(record_counts); i++) {
        lent.book.record_count = record_counts[i];
        check_choose(&check, &lent, 0, 3, 0, REFUSAL_LIST_LENGTH, "records");
    }
    lent.book.record_count = 255;
    check_choose(&check, &lent, 0, 3, 0, DONE, "both fit");
    check_report(&check, report);
}

static void test_plans(struct report *report)
{
    struct check check = {.name = "choosing 31: no plan set, or one with r or s out of range"};
    static const struct {
        struct plan plan;
        uint32_t number;
    } plans[] = {
        {{0, 0}, REFUSAL_NO_PLAN},    {{0, 2249}, REFUSAL_NO_PLAN},  {{1, 0}, DONE},
        {{1, 2249}, DONE},            {{30, 2249}, DONE},            {{31, 0}, REFUSAL_NO_PLAN},
        {{30, 2250}, REFUSAL_NO_PLAN}, {{1, 65535}, REFUSAL_NO_PLAN}, {{65535, 0}, REFUSAL_NO_PLAN},
        {{257, 0}, REFUSAL_NO_PLAN},
    };
    lent_new(&lent);
    check_choose(&check, &lent, 0, 3, 0, REFUSAL_NO_PLAN, "a new book");
    for (size_t i = 0; i < COUNT_OF(plans); i++) {
        lent_new(&lent);
        lent.book.channel.plan = plans[i].plan;
        check_choose(&check, &lent, 0, 3, 0, plans[i].number, "plan");
    }
    check_report(&check, report);
}

static void test_ranges(struct report *report)
{
    struct check check = {.name = "choosing 30: k of r or more, a time-out not 3 to 7, a draw above 65,535"};
    static const struct {
        uint32_t k, time_out, draw, number;
    } calls[] = {
        {29, 3, 0, DONE},           {30, 3, 0, REFUSAL_RANGE},           {256, 3, 0, REFUSAL_RANGE},
        {0xFFFFFFFF, 3, 0, REFUSAL_RANGE}, {0, 2, 0, REFUSAL_RANGE},     {0, 0, 0, REFUSAL_RANGE},
        {0, 7, 0, DONE},            {0, 8, 0, REFUSAL_RANGE},            {0, 259, 0, REFUSAL_RANGE},
        {0, 0xFFFFFFFF, 0, REFUSAL_RANGE}, {0, 3, 65534, DONE},          {0, 3, 65535, REFUSAL_DRAW},
        {0, 3, 65536, REFUSAL_RANGE}, {0, 3, 65537, REFUSAL_RANGE},      {0, 3, 0xFFFFFFFF, REFUSAL_RANGE},
    };
    for (size_t i = 0; i < COUNT_OF(calls); i++) {
        lent_new_plan(&lent, RATE, START, 0);
        check_choose(&check, &lent, calls[i].k, calls[i].time_out, calls[i].draw, calls[i].number, "call");
    }
    for (uint32_t rate = 1; rate <= 30; rate++) {
        lent_new_plan(&lent, rate, START, 0);
        check_choose(&check, &lent, rate, 3, 0, REFUSAL_RANGE, "k is r");
        check_choose(&check, &lent, rate - 1, 3, 0, DONE, "k is the last");
    }
    check_report(&check, report);
}

/* One own mark about the window, in the frames of its set. */
static void test_own_in_window(struct report *report)
{
    struct check check = {.name = "choosing 32: an own mark in the window meant, not beside it and not frames later"};
    for (size_t ahead = FIRST - 1; ahead <= FIRST + SLOTS; ahead++) {
        for (size_t frame = 0; frame <= 8; frame++) {
            bool inside = ahead >= FIRST && ahead < FIRST + SLOTS && frame == 0;
            lent_new_plan(&lent, RATE, START, 0);
            lent_put(&lent, ahead + 2250 * frame, HOLDER_OWN);
            check_choose(&check, &lent, 0, 3, 0, inside ? REFUSAL_WINDOW_OWN : DONE, "own mark");
        }
    }
    check_report(&check, report);
}

/* Now is in the window: an own mark of its present coming is not in the one meant. */
static void test_own_in_present_window(struct report *report)
{
    struct check check = {.name = "choosing 32: where now is in the window, its present coming is not looked at"};
    for (size_t present = 0; present < SLOTS; present++) {
        for (size_t own = 0; own < SLOTS; own++) {
            lent_new_plan(&lent, RATE, START, FIRST + present);
            lent.slots[FIRST + own] = HOLDER_OWN;
            check_choose(&check, &lent, 0, 3, 0, DONE, "own in the present coming, or round the list");
            lent_new_plan(&lent, RATE, START, FIRST + present);
            lent.slots[FIRST + own + 2250] = HOLDER_OWN;
            check_choose(&check, &lent, 0, 3, 0, REFUSAL_WINDOW_OWN, "own in the next coming");
        }
    }
    check_report(&check, report);
}

static void test_no_candidate(struct report *report)
{
    struct check check = {.name = "choosing 33: no candidate; one is enough"};
    for (size_t place = 0; place < SLOTS; place++) {
        lent_new_plan(&lent, RATE, START, 0);
        bar(FIRST, SLOTS);
        check_choose(&check, &lent, 0, 3, 0, REFUSAL_NO_CANDIDATE, "all barred");
        lent_put(&lent, FIRST + place, HOLDER_NONE);
        lent_put(&lent, FIRST + place + 2250, HOLDER_OWN);
        check_choose(&check, &lent, 0, 3, 0, REFUSAL_NO_CANDIDATE, "own a frame later");
        lent_put(&lent, FIRST + place + 2250, HOLDER_NONE);
        check_choose(&check, &lent, 0, 3, 0, DONE, "one free");
    }
    check_report(&check, report);
}

/* So many free slots, the others barred: the last draw of the last whole round, and the next. */
static void test_sent_back(struct report *report)
{
    struct check check = {.name = "choosing 34: draws of n * floor(65536 / n) or more, for every n"};
    for (uint32_t free = 1; free <= 451; free++) {
        uint32_t limit = 65536 / free * free;
        lent_new_plan(&lent, 1, 1000, 0);
        bar(775 + free, 451 - free);
        if (limit < 65536) {
            check_choose(&check, &lent, 0, 3, limit, REFUSAL_DRAW, "the first sent back");
            check_choose(&check, &lent, 0, 3, 65535, REFUSAL_DRAW, "the last sent back");
        }
        uint32_t last = 775 + free - 1;
        check_chosen(&check, &lent, 0, 3, limit - 1, (struct chosen){last, last, free, 0}, "the last taken");
    }
    check_report(&check, report);
}

/* Every set of faults that a call can have at once; the first of them by the order of the paper is expected. Where no
 * slot is a candidate, no draw is sent back. */
static void test_order(struct report *report)
{
    struct check check = {.name = "several refusals deserved in choosing: the first of 20, 31, 30, 32, 33, 34"};
    static const uint32_t order[] = {20, 31, 30, 32, 33, 34};
    for (unsigned faults = 0; faults < 64 * 3; faults++) {
        unsigned range = faults / 64;
        uint32_t expected = DONE;
        for (size_t i = COUNT_OF(order); i-- > 0;) {
            expected = faults >> i & 1 ? order[i] : expected;
        }
        lent_new_plan(&lent, RATE, START, 0);
        bar(FIRST, faults & 16 ? SLOTS : SLOTS - 3);
        lent.book.record_count += faults & 1;
        lent.book.channel.plan.rate = faults & 2 ? 0 : RATE;
        lent.slots[FIRST + 3] = faults & 8 ? HOLDER_OWN : BASE;
        uint32_t k = faults & 4 && range == 0 ? RATE : 0, time_out = faults & 4 && range == 1 ? 8 : 5;
        uint32_t draw = faults & 4 && range == 2 ? 65536 : faults & 32 ? 65535 : 65534;
        check_choose(&check, &lent, k, time_out, draw, expected, "number");
    }
    check_report(&check, report);
}

void choosing_refusals_by_hand(struct report *report)
{
    test_lengths(report);
    test_plans(report);
    test_ranges(report);
    test_own_in_window(report);
    test_own_in_present_window(report);
    test_no_candidate(report);
    test_sent_back(report);
    test_order(report);
}
