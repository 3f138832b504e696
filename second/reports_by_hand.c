/* reports_by_hand.c - report, worked out by hand: time-out, sub-messages and refusals. The reports are asked for with
 * hour 23 and minute 59. */
#include "choosing_by_hand.h"
#include "choosing_case.h"

#define COUNT_OF(list) (sizeof(list) / sizeof(list)[0])

static struct lent lent;

/* Now is own, and so is the same slot in these later frames, bit 0 the next one. */
static void own_frames(unsigned frames)
{
    lent_put(&lent, 0, HOLDER_OWN);
    for (size_t i = 0; i < 8; i++) {
        lent_put(&lent, 2250 * (i + 1), frames >> i & 1 ? HOLDER_OWN : HOLDER_NONE);
    }
}

/* ---- time-out and sub-messages ---- */

static void test_time_outs(struct report *report)
{
    struct check check = {.name = "the time-out is the number of frames in a row, at most 7; a gap ends it"};
    lent_new_plan(&lent, 14, 0, 20160);
    for (unsigned frames = 0; frames < 256; frames++) {
        struct reported reported = reported_nothing;
        unsigned row = 0;
        while (row < 7 && frames >> row & 1) {
            row++;
        }
        own_frames(frames);
        check_that(&check, second_report(&lent.book, 0, 0, &reported) == DONE && reported.time_out == row, "time-out");
    }
    check_report(&check, report);
}

static void test_sub_messages(struct report *report)
{
    struct check check = {.name = "3, 5, 7: stations; 2, 4, 6: slot number; 1: hour and minute, unused 0; 0: offset"};
    lent_new_plan(&lent, 14, 0, 4500 + 160);
    lent_put(&lent, 1000, 7);
    lent_put(&lent, 1001, 7);
    lent_put(&lent, 1002, 255);
    lent.records[99].source = 500;
    for (unsigned time_out = 0; time_out <= 7; time_out++) {
        struct reported expected = {.time_out = time_out};
        own_frames((1u << time_out) - 1);
        expected.stations = time_out >= 3 && time_out % 2 == 1 ? 2 : 0;
        expected.slot_number = time_out >= 2 && time_out % 2 == 0 ? 160 : 0;
        expected.hour = time_out == 1 ? 23 : 0;
        expected.minute = time_out == 1 ? 59 : 0;
        check_reported(&check, &lent, expected, "sub-message");
    }
    check_report(&check, report);
}

static void test_stations(struct report *report)
{
    struct check check = {.name = "stations: the records with tally above 0, up to 255, ourselves not among them"};
    for (uint16_t stations = 0; stations <= 255; stations++) {
        lent_fill_register(&lent, 255u - stations);
        second_plan(&lent.book, 14, 0);
        own_frames(7);
        check_reported(&check, &lent, (struct reported){.time_out = 3, .stations = stations}, "stations");
    }
    check_report(&check, report);
}

static void test_slot_number(struct report *report)
{
    struct check check = {.name = "slot number: now's, in every frame of the list, also where now is out of range"};
    const size_t nows[] = {0, 1, 2249, 2250, 4499, 20249, 20250, 22499, 65535};
    for (size_t i = 0; i < COUNT_OF(nows); i++) {
        lent_new_plan(&lent, 14, 0, nows[i] % 20250);
        own_frames(3);
        lent.book.now = nows[i];
        const struct reported expected = {.time_out = 2, .slot_number = (uint32_t)(nows[i] % 2250)};
        check_reported(&check, &lent, expected, "slot number");
    }
    check_report(&check, report);
}

/* ---- offset ---- */

/* Now at each place of the window, one own mark at each place of its next coming. */
static void test_offsets(struct report *report)
{
    struct check check = {.name = "offset: the distance to the own mark in the next coming of now's window"};
    const uint32_t rates[] = {30, 14, 1};
    for (size_t i = 0; i < COUNT_OF(rates); i++) {
        const uint32_t slots = 2 * (225 / rates[i]) + 1, step = rates[i] == 1 ? 5 : 1;
        for (uint32_t present = 0; present < slots; present += step) {
            lent_new_plan(&lent, rates[i], 500, 18000 + 500 - slots / 2 + present);
            lent_put(&lent, 0, HOLDER_OWN);
            for (uint32_t place = 0; place < slots; place += step) {
                uint32_t offset = 2250 - present + place;
                lent_put(&lent, offset, HOLDER_OWN);
                const struct reported expected = {.time_out = 0, .offset = offset};
                if (place != present) {
                    check_reported(&check, &lent, expected, "offset");
                }
                lent_put(&lent, offset, HOLDER_NONE);
            }
        }
    }
    check_report(&check, report);
}

/* Rate 30 and start 100: window 0 has the slots 93 to 107. Now is 95; its next coming is 2248 to 2262 ahead. */
static void test_no_offset(struct report *report)
{
    struct check check = {.name = "offset: the first of several; 0 where the next coming has no own mark"};
    const size_t beside[] = {1, 12, 75, 2247, 2263, 2325, 4500, 4501, 18000, 20248, 20249};
    lent_new_plan(&lent, 30, 100, 95);
    lent_put(&lent, 0, HOLDER_OWN);
    lent_put(&lent, 2251, 9);
    check_reported(&check, &lent, (struct reported){.offset = 0}, "no own mark at all");
    for (size_t i = 0; i < COUNT_OF(beside); i++) {
        lent_put(&lent, beside[i], HOLDER_OWN);
        check_reported(&check, &lent, (struct reported){.offset = 0}, "own marks elsewhere");
    }
    lent_put(&lent, 2262, HOLDER_OWN);
    check_reported(&check, &lent, (struct reported){.offset = 2262}, "the last of the window");
    lent_put(&lent, 2252, HOLDER_OWN);
    check_reported(&check, &lent, (struct reported){.offset = 2252}, "the first of two");
    lent_put(&lent, 2248, HOLDER_OWN);
    check_reported(&check, &lent, (struct reported){.offset = 2248}, "the first of the window");
    check_report(&check, report);
}

static void test_no_window(struct report *report)
{
    struct check check = {.name = "offset: 0 where now, though own, lies in no window"};
    const size_t nows[] = {92, 108, 20250 - 2250 + 108};
    for (size_t i = 0; i < COUNT_OF(nows); i++) {
        lent_new_plan(&lent, 30, 100, nows[i]);
        lent_put(&lent, 0, HOLDER_OWN);
        lent_put_row(&lent, 1, 2249, HOLDER_OWN);
        lent_put_row(&lent, 2251, 2249, HOLDER_OWN);
        check_reported(&check, &lent, (struct reported){.offset = 0}, "no window");
    }
    check_report(&check, report);
}

/* A report with time-out 0, then the choice of the next slot, then the report again. */
static void test_chosen_and_reported(struct report *report)
{
    struct check check = {.name = "a choice in the slot of the last report: never the same slot; its offset is told"};
    for (uint32_t draw = 0; draw < 32; draw++) {
        struct chosen chosen;
        lent_new_plan(&lent, 14, 0, 2250 + 160);
        lent_put(&lent, 0, HOLDER_OWN);
        check_reported(&check, &lent, (struct reported){.offset = 0}, "before the choice");
        check_that(&check, second_choose(&lent.book, 1, 4, draw, &chosen) == DONE, "choice");
        check_that(&check, chosen.candidates == 32 && chosen.distance != 2250, "the same slot");
        check_reported(&check, &lent, (struct reported){.offset = chosen.distance}, "after the choice");
    }
    check_report(&check, report);
}

/* ---- refusals ---- */

static void test_ranges(struct report *report)
{
    struct check check = {.name = "report 30: hour above 23 or minute above 59, whatever the time-out"};
    for (unsigned time_out = 0; time_out <= 7; time_out++) {
        lent_new_plan(&lent, 14, 0, 0);
        own_frames((1u << time_out) - 1);
        check_reporting(&check, &lent, 0, 0, DONE, "0 0");
        check_reporting(&check, &lent, 23, 59, DONE, "23 59");
        check_reporting(&check, &lent, 24, 59, REFUSAL_RANGE, "24 59");
        check_reporting(&check, &lent, 23, 60, REFUSAL_RANGE, "23 60");
        check_reporting(&check, &lent, 0xFFFFFFFF, 0, REFUSAL_RANGE, "any hour");
        check_reporting(&check, &lent, 0, 0x100, REFUSAL_RANGE, "any minute");
    }
    check_report(&check, report);
}

static void test_not_own(struct report *report)
{
    struct check check = {.name = "report 36: now is not own, whoever holds it"};
    const uint16_t holders[] = {0, 1, 255, 257, 65535};
    for (size_t i = 0; i < COUNT_OF(holders); i++) {
        lent_new_plan(&lent, 14, 0, 20249);
        own_frames(127);
        lent.slots[20249] = holders[i];
        check_reporting(&check, &lent, 0, 0, REFUSAL_NOT_OWN, "holder");
    }
    check_report(&check, report);
}

static void test_order(struct report *report)
{
    struct check check = {.name = "several refusals deserved in report: the first of 20, 31, 30, 36"};
    static const uint32_t order[] = {20, 31, 30, 36};
    static const struct plan no_plans[] = {{0, 0}, {31, 0}, {1, 2250}, {65535, 65535}};
    for (unsigned faults = 0; faults < 16; faults++) {
        for (size_t plan = 0; plan < COUNT_OF(no_plans); plan++) {
            uint32_t expected = DONE;
            for (size_t i = COUNT_OF(order); i-- > 0;) {
                expected = faults >> i & 1 ? order[i] : expected;
            }
            lent_new_plan(&lent, 14, 0, 0);
            lent_put(&lent, 0, faults & 8 ? HOLDER_NONE : HOLDER_OWN);
            lent.book.slot_count += faults & 1;
            lent.book.channel.plan = faults & 2 ? no_plans[plan] : (struct plan){14, 0};
            check_reporting(&check, &lent, faults & 4 ? 24 : 0, 0, expected, "number");
        }
    }
    check_report(&check, report);
}

void reports_by_hand(struct report *report)
{
    test_time_outs(report);
    test_sub_messages(report);
    test_stations(report);
    test_slot_number(report);
    test_offsets(report);
    test_no_offset(report);
    test_no_window(report);
    test_chosen_and_reported(report);
    test_ranges(report);
    test_not_own(report);
    test_order(report);
}
