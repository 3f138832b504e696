/* records_by_hand.c - hearing: which record a station gets and what is stored in it, worked out by hand. */
#include "book_by_hand.h"
#include "book_case.h"

#define COUNT_OF(list) (sizeof(list) / sizeof(list)[0])

static struct lent lent;

static bool heard_in(struct outcome outcome, uint16_t record, uint32_t source)
{
    return outcome.number == DONE && outcome.heard.record == record && outcome.heard.source == source;
}

/* Stations 1001 on take the records 1 on, with marks that do not meet: each is heard one slot later. */
static void fill_register(unsigned stations)
{
    lent_new(&lent);
    for (uint32_t i = 0; i < stations; i++) {
        hear_self_organised(&lent, 1001 + i, 3, 0);
        second_pass(&lent.book, 1);
    }
}

static void empty_record(uint16_t record)
{
    for (size_t ahead = 0; ahead < SECOND_SLOTS; ahead++) {
        if (lent_holder(&lent, ahead) == record) {
            lent_put(&lent, ahead, HOLDER_NONE);
        }
    }
}

static void test_new_stations(struct report *report)
{
    struct check check = {.name = "new stations take the lowest-numbered records with tally 0, and keep them"};
    fill_register(255);
    for (uint16_t i = 0; i < 255; i++) {
        check_that(&check, lent.records[i].source == 1001u + i && lent.records[i].tally == 3, "record in order");
    }
    for (uint16_t i = 0; i < 255; i++) {
        check_that(&check, heard_in(hear_self_organised(&lent, 1001u + i, 3, 0), (uint16_t)(i + 1), 1001u + i),
                   "heard again");
    }
    check_report(&check, report);
}

static void test_take_over(struct report *report)
{
    struct check check = {.name = "a take-over: the lowest-numbered record with tally 0; nothing is kept of the old"};
    const struct spoken new = {
        .source = 9, .latitude = -7, .longitude = 8, .said = {.kind = INCREMENTAL, .increment = 50, .slots_code = 1},
    };
    const struct station expected = {9, false, -7, 8, 2, 0};
    fill_register(255);
    lent.records[39] = (struct station){1040, true, 123456, -654321, 3, 2000};
    empty_record(40);
    empty_record(200);
    check_that(&check, heard_in(lent_hear(&lent, 3, &new), 40, 9), "record");
    check_that(&check, station_same(&lent.records[39], &expected), "what is stored");
    check_that(&check, heard_in(hear_self_organised(&lent, 1040, 1, 0), 200, 1040), "the old station is new again");
    check_that(&check, hear_self_organised(&lent, 1200, 1, 0).number == REFUSAL_NO_RECORD, "no record is left");
    check_report(&check, report);
}

static void test_known_source(struct report *report)
{
    struct check check = {.name = "a known source is found also with tally 0, past a lower record; hold-off stays"};
    fill_register(3);
    second_pass(&lent.book, 7000);
    check_that(&check, lent.records[0].tally + lent.records[1].tally + lent.records[2].tally == 0, "tallies");
    lent.records[1].hold_off = 99;
    check_that(&check, heard_in(hear_self_organised(&lent, 1002, 4, 0), 2, 1002), "record");
    check_that(&check, lent.records[1].hold_off == 99 && lent.records[1].tally == 4, "hold-off or tally");
    check_that(&check, heard_in(hear_self_organised(&lent, 1002, 5, 0), 2, 1002), "record again");
    check_that(&check, lent.records[1].hold_off == 99 && lent.records[1].tally == 5, "hold-off or tally again");
    check_report(&check, report);
}

static void test_silent_station(struct report *report)
{
    struct check check = {.name = "a station that marks nothing takes a record, which the next new one may take over"};
    lent_new(&lent);
    check_that(&check, heard_in(hear_self_organised(&lent, 50, 0, 0), 1, 50), "no offset");
    check_that(&check, lent.records[0].source == 50 && lent.records[0].tally == 0, "first record");
    check_that(&check, heard_in(hear_incremental(&lent, 60, 0, 3, 0), 1, 60), "no increment");
    check_that(&check, lent.records[0].source == 60 && lent.records[1].source == 0, "taken over");
    lent_put(&lent, 2250, 256);
    check_that(&check, heard_in(hear_self_organised(&lent, 70, 1, 0), 1, 70), "only our own slot");
    check_that(&check, heard_in(hear_self_organised(&lent, 80, 2, 0), 1, 80), "taken over again");
    check_that(&check, lent.records[0].tally == 1 && lent.records[1].source == 0, "tally");
    check_report(&check, report);
}

/* The last message decides, for all standing marks of the record. */
static void test_kind_and_position(struct report *report)
{
    struct check check = {.name = "message 4: base, the others: mobile; the last message decides kind and position"};
    const uint32_t ids[] = {1, 4, 2, 4, 3, 4, 1, 2, 3};
    const int32_t latitudes[] = {0, -1, 54000000, -54000000, 54600000, 67108863, -67108864, 1, 2};
    const int32_t longitudes[] = {-1, 0, 108000000, -108000000, 108600000, 134217727, -134217728, 2, 1};
    lent_new(&lent);
    hear_self_organised(&lent, 500, 7, 0);
    for (size_t i = 0; i < COUNT_OF(ids); i++) {
        struct spoken spoken = {.source = 500, .latitude = latitudes[i], .longitude = longitudes[i]};
        spoken.said.time_out = 7;
        const struct station expected = {500, ids[i] == 4, latitudes[i], longitudes[i], 7, 0};
        check_that(&check, heard_in(lent_hear(&lent, ids[i], &spoken), 1, 500), "record");
        check_that(&check, station_same(&lent.records[0], &expected), "what is stored");
    }
    check_report(&check, report);
}

/* Message 4 and message 2 carry the same state as message 1. */
static void test_ids(struct report *report)
{
    struct check check = {.name = "messages 1, 2 and 4 are self-organised, message 3 is incremental"};
    const size_t frames[] = {2250, 4500, 6750}, offset[] = {1234}, block[] = {40, 41};
    for (uint32_t id = 1; id <= 4; id++) {
        struct spoken spoken = {.source = 500, .said = {.time_out = 3, .increment = 40, .slots_code = 1}};
        lent_new(&lent);
        struct outcome outcome = lent_hear(&lent, id, &spoken);
        check_heard(&check, &lent, outcome, id == 3 ? 2 : 3, id == 3 ? block : frames, id == 3 ? 2 : 3, "time-out 3");
        spoken.said.time_out = 0;
        spoken.said.offset = 1234;
        outcome = lent_hear(&lent, id, &spoken);
        check_heard(&check, &lent, outcome, id == 3 ? 2 : 1, id == 3 ? block : offset, id == 3 ? 2 : 1, "offset");
    }
    check_report(&check, report);
}

void records_by_hand(struct report *report)
{
    test_new_stations(report);
    test_take_over(report);
    test_known_source(report);
    test_silent_station(report);
    test_kind_and_position(report);
    test_ids(report);
}
