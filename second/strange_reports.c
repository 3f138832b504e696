/* strange_reports.c - report on books full of random numbers. What has to come out is worked out step by step from the
 * rules for such books, by places of the list. */
#include "choosing_by_hand.h"
#include "occurrences.h"
#include "strange_book.h"

enum { BOOKS = 3000, TIME_OUTS = 8 };

/* What has to occur, and the numbers given back. */
static unsigned long numbers[NUMBERS_END], time_outs[TIME_OUTS], offsets, no_offsets, no_windows;

/* Now is so far from the middle of a window; its next coming is as far from now plus a frame. */
static uint32_t first_own_of_next(long reach, long present)
{
    for (long place = -reach; place <= reach; place++) {
        long ahead = 2250 + place - present;
        if (*strange_holder((size_t)ahead) == HOLDER_OWN) {
            return (uint32_t)ahead;
        }
    }
    no_offsets++;
    return 0;
}

static uint32_t expect_offset(void)
{
    uint32_t rate = strange_expected.book.channel.plan.rate;
    long reach = 225 / (long)rate;
    for (uint32_t k = 0; k < rate; k++) {
        for (long present = -reach; present <= reach; present++) {
            if (strange_is_at(0, k, present)) {
                return first_own_of_next(reach, present);
            }
        }
    }
    no_windows++;
    return 0;
}

static uint32_t expect_report(uint32_t hour, uint32_t minute, struct reported *reported)
{
    uint32_t stations = 0, row = 1;
    if (strange_has_no_plan()) {
        return 31;
    }
    if (hour > 23 || minute > 59 || *strange_holder(0) != HOLDER_OWN) {
        return hour > 23 || minute > 59 ? 30 : 36;
    }
    while (row <= 7 && *strange_holder(2250 * (size_t)row) == HOLDER_OWN) {
        row++;
    }
    for (size_t i = 0; i < SECOND_RECORDS; i++) {
        stations += strange_expected.records[i].tally != 0;
    }
    *reported = (struct reported){.time_out = row - 1};
    if (row == 1) {
        reported->offset = expect_offset();
    } else if (row == 2) {
        reported->hour = hour;
        reported->minute = minute;
    } else if (row % 2 == 1) {
        reported->slot_number = (uint32_t)(strange_expected.book.now % 2250);
    } else {
        reported->stations = stations;
    }
    return 0;
}

static void try_report(struct check *check)
{
    struct reported reported = reported_nothing, expected_reported = reported_nothing;
    uint32_t hour = strange_below(30) == 0 ? 24 : strange_below(24);
    uint32_t minute = strange_below(30) == 0 ? 60 : strange_below(60);
    strange_make_own();
    strange_expected = strange;
    uint32_t number = expect_report(hour, minute, &expected_reported);
    uint32_t given = second_report(&strange.book, hour, minute, &reported);
    check_that(check, given == number, "number");
    check_that(check, reported_same(&reported, &expected_reported), "answer");
    check_that(check, lent_same(&strange_expected, &strange), "a report changed something");
    numbers[given < NUMBERS_END ? given : DONE]++;
    time_outs[given == DONE ? reported.time_out % 8 : 0] += given == DONE;
    offsets += given == DONE && reported.offset > 0;
}

void strange_reports_at_random(struct report *report)
{
    static const struct call_numbers call = {"report on such books", {0, 31, 30, 36}, 4};
    struct check check = {.name = "report on books full of random numbers"};
    for (size_t i = 0; i < BOOKS; i++) {
        strange_make();
        try_report(&check);
    }
    check_report(&check, report);
    report_call_numbers(report, &call, numbers);
    report_each(report, "time-outs reported on such books", time_outs, 0, TIME_OUTS);
    report_occurrence(report, "on such books, a report with an offset", offsets);
    report_occurrence(report, "on such books, a report with time-out 0 and no own mark ahead", no_offsets);
    report_occurrence(report, "on such books, a report in no window", no_windows);
}
