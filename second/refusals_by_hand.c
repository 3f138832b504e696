/* refusals_by_hand.c - each refusal of the slot book at its limit and one past it. */
#include "book_by_hand.h"
#include "book_case.h"

#define COUNT_OF(list) (sizeof(list) / sizeof(list)[0])

static struct lent lent, before;

static const struct spoken good = {.source = 500, .said = {.kind = SELF_ORGANISED, .time_out = 4}};

/* ---- lengths ---- */

/* Lengths about the right one, and lengths that would pass for it if they were cut down to 16 or 32 bits. */
static const size_t wrong_slot_counts[] = {0, 1, 20249, 20251, 2250, 20250 + 65536, (size_t)-1};
static const size_t wrong_record_counts[] = {0, 1, 254, 256, 255 + 65536, (size_t)-1};

static void check_lengths(struct check *check)
{
    uint8_t message[SECOND_MESSAGE_BYTES];
    struct heard heard = heard_nothing;
    uint32_t marks = 12345;
    speak(1, &good, message);
    before = lent;
    uint32_t number = second_hear(&lent.book, message, sizeof message, &heard);
    check_number(check, &before, &lent, number, REFUSAL_LIST_LENGTH, "hear");
    check_that(check, heard_same(&heard, &heard_nothing), "the answer");
    number = second_mark(&lent.book, 1, &good.said, &marks);
    check_number(check, &before, &lent, number, REFUSAL_LIST_LENGTH, "mark");
    check_that(check, marks == 12345, "the marks");
    check_number(check, &before, &lent, second_pass(&lent.book, 0), REFUSAL_LIST_LENGTH, "no pass");
    check_number(check, &before, &lent, second_pass(&lent.book, 1), REFUSAL_LIST_LENGTH, "pass");
    check_number(check, &before, &lent, second_plan(&lent.book, 14, 0), REFUSAL_LIST_LENGTH, "plan");
    check_that(check, second_own(&lent.book, 5, 0, 0) == DONE, "own looks at no list");
}

static void test_lengths(struct report *report)
{
    struct check check = {.name = "20: book or register of another length"};
    for (size_t i = 0; i < COUNT_OF(wrong_slot_counts); i++) {
        lent_new(&lent);
        lent.book.slot_count = wrong_slot_counts[i];
        check_lengths(&check);
    }
    for (size_t i = 0; i < COUNT_OF(wrong_record_counts); i++) {
        lent_new(&lent);
        lent.book.record_count = wrong_record_counts[i];
        check_lengths(&check);
    }
    check_report(&check, report);
}

/* ---- hearing ---- */

static void test_messages(struct report *report)
{
    struct check check = {.name = "17, 18: message not 21 bytes; id not 1 to 4"};
    const size_t lengths[] = {0, 1, 20, 21, 22, 255, 256 + 21};
    lent_new(&lent);
    for (uint32_t id = 0; id < 64; id++) {
        for (size_t i = 0; i < COUNT_OF(lengths); i++) {
            uint8_t message[300] = {0};
            struct heard heard = heard_nothing;
            uint32_t expected = lengths[i] != 21 ? REFUSAL_MESSAGE_LENGTH : id < 1 || id > 4 ? REFUSAL_ID : DONE;
            speak(id, &good, message);
            before = lent;
            uint32_t number = second_hear(&lent.book, message, lengths[i], &heard);
            check_number(&check, &before, &lent, number, expected, "number");
            check_that(&check, heard_same(&heard, &heard_nothing) == (number != DONE), "the answer");
        }
    }
    check_report(&check, report);
}

static void check_hearing(struct check *check, const struct spoken *spoken, uint32_t expected, const char *what)
{
    for (uint32_t id = 1; id <= 4; id++) {
        before = lent;
        struct outcome outcome = lent_hear(&lent, id, spoken);
        check_number(check, &before, &lent, outcome.number, expected, what);
        check_that(check, heard_same(&outcome.heard, &heard_nothing) == (expected != DONE), "the answer");
    }
}

static void test_sources(struct report *report)
{
    struct check check = {.name = "21, 22: source 0, above 999,999,999 or our own; repeat above 0"};
    static const struct {
        uint32_t source, own, repeat, expected;
    } cases[] = {
        {0, 0, 0, REFUSAL_SOURCE},
        {0, 77, 0, REFUSAL_SOURCE},
        {1, 0, 0, DONE},
        {1, 1, 0, REFUSAL_SOURCE},
        {1, 2, 0, DONE},
        {999999999, 0, 0, DONE},
        {999999999, 999999999, 0, REFUSAL_SOURCE},
        {999999999, 999999998, 0, DONE},
        {1000000000, 0, 0, REFUSAL_SOURCE},
        {1073741823, 0, 0, REFUSAL_SOURCE},
        {500, 0, 1, REFUSAL_REPEAT},
        {500, 0, 2, REFUSAL_REPEAT},
        {500, 0, 3, REFUSAL_REPEAT},
        {500, 500, 3, REFUSAL_SOURCE},
    };
    for (size_t i = 0; i < COUNT_OF(cases); i++) {
        struct spoken spoken = good;
        lent_new(&lent);
        lent.book.ship.source = cases[i].own;
        spoken.source = cases[i].source;
        spoken.repeat = cases[i].repeat;
        check_hearing(&check, &spoken, cases[i].expected, "number");
    }
    check_report(&check, report);
}

static void test_no_record(struct report *report)
{
    struct check check = {.name = "23: a new source, and no record with tally 0"};
    struct spoken spoken = good;
    lent_fill_register(&lent, 0);
    check_hearing(&check, &spoken, REFUSAL_NO_RECORD, "new source");
    spoken.source = 1255;
    check_hearing(&check, &spoken, DONE, "known source");
    lent_fill_register(&lent, 1);
    check_hearing(&check, &good, DONE, "one record with tally 0");
    check_that(&check, lent.records[0].source == 500, "taken over");
    check_report(&check, report);
}

static void test_beyond(struct report *report)
{
    struct check check = {.name = "35: a mark would lie beyond the book, at 20,250 or more ahead"};
    static const struct {
        struct announcement said;
        uint32_t expected, marks;
    } cases[] = {
        {{SELF_ORGANISED, 0, 20249, 0, 0, 0}, DONE, 1},
        {{SELF_ORGANISED, 0, 20250, 0, 0, 0}, REFUSAL_BEYOND, 0},
        {{SELF_ORGANISED, 0, 0xFFFFFFFF, 0, 0, 0}, REFUSAL_BEYOND, 0},
        {{SELF_ORGANISED, 0, 18000, 0, 0, 0}, DONE, 1},
        {{SELF_ORGANISED, 1, 20250, 0, 0, 0}, DONE, 1},
        {{SELF_ORGANISED, 7, 20250, 0, 0, 0}, DONE, 7},
        {{SELF_ORGANISED, 8, 20250, 0, 0, 0}, DONE, 7},
        {{SELF_ORGANISED, 0xFFFFFFFF, 0xFFFFFFFF, 0, 0, 0}, DONE, 7},
        {{SELF_ORGANISED, 0, 0, 0xFFFFFFFF, 0xFFFFFFFF, 1}, DONE, 0},
        {{INCREMENTAL, 0, 20250, 20249, 0, 0}, DONE, 1},
        {{INCREMENTAL, 0, 0, 20250, 0, 0}, REFUSAL_BEYOND, 0},
        {{INCREMENTAL, 0, 0, 20245, 4, 0}, DONE, 5},
        {{INCREMENTAL, 0, 0, 20246, 4, 1}, REFUSAL_BEYOND, 0},
        {{INCREMENTAL, 0, 0, 12057, 5, 1}, DONE, 2},
        {{INCREMENTAL, 0, 0, 12058, 5, 1}, REFUSAL_BEYOND, 0},
        {{INCREMENTAL, 0, 0, 1, 12061, 0}, DONE, 12057},
        {{INCREMENTAL, 0, 0, 1, 12062, 0}, REFUSAL_BEYOND, 0},
        {{INCREMENTAL, 0, 0, 1, 8, 2}, DONE, 4},
        {{INCREMENTAL, 0, 0, 0, 0xFFFFFFFF, 0}, DONE, 0},
        {{INCREMENTAL, 0, 0, 0, 0xFFFFFFFF, 1}, DONE, 1},
        {{INCREMENTAL, 0, 0, 0, 0, 2}, DONE, 0},
        {{INCREMENTAL, 0, 0, 0, 0, 0xFFFFFFFF}, DONE, 0},
        {{INCREMENTAL, 0, 0, 0xFFFFFFFF, 0, 0}, REFUSAL_BEYOND, 0},
        {{INCREMENTAL, 0, 0, 0xFFFFE000, 5, 0}, REFUSAL_BEYOND, 0},
        {{INCREMENTAL, 0, 0, 0xFFFFFFFF, 0xFFFFFFFF, 1}, REFUSAL_BEYOND, 0},
        {{INCREMENTAL, 0, 0, 1, 0xFFFFFFFF, 1}, REFUSAL_BEYOND, 0},
    };
    for (size_t i = 0; i < COUNT_OF(cases); i++) {
        const struct spoken spoken = {.source = 500, .said = cases[i].said};
        struct heard heard = heard_nothing;
        uint32_t marks = 12345;
        lent_new(&lent);
        lent.book.now = 20000;
        before = lent;
        uint32_t number = second_hear_spoken(&lent.book, &spoken, &heard);
        check_number(&check, &before, &lent, number, cases[i].expected, "hear");
        bool answered = number == DONE ? heard.marks == cases[i].marks : heard_same(&heard, &heard_nothing);
        check_that(&check, answered, "answer");
        lent = before;
        number = second_mark(&lent.book, 1, &spoken.said, &marks);
        check_number(&check, &before, &lent, number, cases[i].expected, "mark");
        check_that(&check, marks == (number == DONE ? cases[i].marks : 12345), "marks");
        check_that(&check, lent.records[0].tally == cases[i].marks, "tally");
    }
    check_report(&check, report);
}

/* ---- plan and own ---- */

static void test_plan_ranges(struct report *report)
{
    struct check check = {.name = "30 of plan: r not 1 to 30, s not 0 to 2249; marks and old plan stay"};
    const uint32_t rates[] = {0, 1, 14, 30, 31, 256 + 14, 65536 + 1, 0xFFFFFFFF};
    const uint32_t starts[] = {0, 1, 2249, 2250, 65536, 0xFFFFFFFF};
    for (size_t i = 0; i < COUNT_OF(rates); i++) {
        for (size_t k = 0; k < COUNT_OF(starts); k++) {
            bool fits = rates[i] >= 1 && rates[i] <= 30 && starts[k] <= 2249;
            lent_new(&lent);
            lent.book.channel.plan = (struct plan){7, 8};
            lent_put(&lent, 40, 256);
            before = lent;
            uint32_t number = second_plan(&lent.book, rates[i], starts[k]);
            check_number(&check, &before, &lent, number, fits ? DONE : REFUSAL_RANGE, "number");
        }
    }
    check_report(&check, report);
}

static void test_own_ranges(struct report *report)
{
    struct check check = {.name = "21, 30 of own: source; position neither known nor 54,600,000 / 108,600,000"};
    static const int32_t latitudes[] = {
        0, 54000000, 54000001, -54000000, -54000001, 54599999, 54600000, 54600001, -54600000, INT32_MAX, INT32_MIN,
    };
    static const int32_t longitudes[] = {
        0, 108000000, 108000001, -108000000, -108000001, 108599999, 108600000, 108600001, -108600000, INT32_MAX,
        INT32_MIN,
    };
    static const struct {
        uint32_t source;
        bool fits;
    } sources[] = {{0, false}, {1, true}, {999999999, true}, {1000000000, false}, {0xFFFFFFFF, false}};
    const bool known[] = {true, true, false, true, false, false, false, false, false, false, false};
    for (size_t i = 0; i < COUNT_OF(latitudes); i++) {
        for (size_t k = 0; k < COUNT_OF(longitudes); k++) {
            for (size_t s = 0; s < COUNT_OF(sources); s++) {
                uint32_t expected = (known[i] && known[k]) || (i == 6 && k == 6) ? DONE : REFUSAL_RANGE;
                lent_new(&lent);
                lent.book.ship = (struct ship){7, 8, 9};
                before = lent;
                uint32_t number = second_own(&lent.book, sources[s].source, latitudes[i], longitudes[k]);
                check_number(&check, &before, &lent, number, sources[s].fits ? expected : REFUSAL_SOURCE, "number");
            }
        }
    }
    check_report(&check, report);
}

void refusals_by_hand(struct report *report)
{
    test_lengths(report);
    test_messages(report);
    test_sources(report);
    test_no_record(report);
    test_beyond(report);
    test_plan_ranges(report);
    test_own_ranges(report);
}
