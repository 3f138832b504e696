/* rows_by_hand.c - what a report announces: the times of its rows; and the order in which they are freed and marked,
 * which shows where counts do not belong to the slots. Worked out by hand. */
#include "book_by_hand.h"
#include "book_case.h"
#include "rows.h"

#define COUNT_OF(list) (sizeof(list) / sizeof(list)[0])

static struct lent lent;

/* ---- the times of the rows ---- */

/* The sentence itself, asked of one time. */
static bool row_has(const struct row *row, uint64_t ahead)
{
    for (uint64_t frame = 0; frame < row->frames; frame++) {
        for (uint64_t time = 0; time < row->times; time++) {
            uint64_t first = row->from + row->step * time + SECOND_FRAME * frame;
            if (ahead >= first && ahead < first + row->slots) {
                return true;
            }
        }
    }
    return false;
}

static bool some_row_has(const struct rows *rows, enum act act, uint64_t ahead)
{
    for (size_t i = 0; i < rows->count; i++) {
        if (rows->list[i].act == act && row_has(&rows->list[i], ahead)) {
            return true;
        }
    }
    return false;
}

/* One time after the other is asked, and the next one given has to be the next one that a row has. */
static void check_times(struct check *check, const struct rows *rows, enum act act, size_t count)
{
    struct rows gone_through = *rows;
    uint64_t next = second_next_time(&gone_through, act, 0);
    size_t found = 0;
    for (uint64_t ahead = 0; ahead < SECOND_SLOTS; ahead++) {
        bool has = some_row_has(rows, act, ahead);
        check_that(check, has == (next == ahead), "another time than the next");
        next = next == ahead ? second_next_time(&gone_through, act, ahead + 1) : next;
        found += has;
    }
    check_that(check, found == count, "how many times");
}

/* Rows with steps too, which no state of the messages 1 to 4 has. */
static void test_times(struct report *report)
{
    struct check check = {.name = "going through rows: each time that some row has, once, in the order of time"};
    static const struct {
        struct rows rows;
        size_t freed, marked;
    } cases[] = {
        {{.count = 0}, 0, 0},
        {{{{ACT_FREE, 9000, 1, 0, 1, 4, 0, 0}, {ACT_MARK, 2250, 1, 0, 1, 3, 0, 0}}, 2}, 4, 3},
        {{{{ACT_MARK, 2250, 1, 0, 1, 1, 0, 0}, {ACT_MARK, 2248, 5, 0, 1, 1, 0, 0}}, 2}, 0, 5},
        {{{{ACT_MARK, 2250, 1, 0, 1, 1, 0, 0}, {ACT_MARK, 100, 2, 0, 1, 1, 0, 0}}, 2}, 0, 3},
        {{{{ACT_MARK, 1, 3, 750, 3, 2, 0, 0}, {ACT_FREE, 1, 3, 750, 3, 2, 0, 0}}, 2}, 18, 18},
        {{{{ACT_MARK, 1, 3, 750, 3, 2, 0, 0}, {ACT_MARK, 2, 3, 750, 3, 3, 0, 0}}, 2}, 0, 6 * 4 + 3 * 3},
        {{{{ACT_MARK, 7, 15, 10, 225, 2, 0, 0}, {ACT_MARK, 4501, 2, 0, 1, 1, 0, 0}}, 2}, 0, 4505},
        {{{{ACT_MARK, 4095, 15, 2047, 2, 7, 0, 0}, {ACT_MARK, 20249, 2, 0, 1, 1, 0, 0}}, 2}, 0, 14 * 15 + 1},
    };
    for (size_t i = 0; i < COUNT_OF(cases); i++) {
        check_times(&check, &cases[i].rows, ACT_FREE, cases[i].freed);
        check_times(&check, &cases[i].rows, ACT_MARK, cases[i].marked);
    }
    check_report(&check, report);
}

/* ---- freed and marked where counts stop ---- */

/* Where the place in the list goes with the time ahead, and where the list ends between 2249 and 2250 ahead. */
static const size_t nows[] = {0, 18000};

/* The station of record 1 holds these times, 0 for none, and the counts are these; then it is heard. */
struct row_case {
    struct announcement said;
    size_t held[4];
    uint16_t tally, free;
    uint32_t marks;
    uint16_t tally_after, free_after;
};

static void check_case(struct check *check, const struct row_case *one, size_t now)
{
    const struct spoken spoken = {.source = 500, .said = one->said};
    struct heard heard = heard_nothing;
    lent_new(&lent);
    lent.book.now = now;
    lent.book.channel.free = one->free;
    lent.records[0] = (struct station){500, false, 0, 0, one->tally, 0};
    for (size_t i = 0; i < COUNT_OF(one->held) && one->held[i] != 0; i++) {
        lent.slots[(now + one->held[i]) % 20250] = 1;
    }
    check_that(check, second_hear_spoken(&lent.book, &spoken, &heard) == DONE && heard.marks == one->marks, "marks");
    check_that(check, lent.records[0].tally == one->tally_after, "tally");
    check_that(check, lent.book.channel.free == one->free_after, "free count");
}

static void check_cases(struct check *check, const struct row_case *cases, size_t count, struct report *report)
{
    for (size_t i = 0; i < count; i++) {
        for (size_t k = 0; k < COUNT_OF(nows); k++) {
            check_case(check, &cases[i], nows[k]);
        }
    }
    check_report(check, report);
}

static void test_frees_first(struct report *report)
{
    struct check check = {.name = "counts that do not fit: all that is freed is freed before anything is marked"};
    static const struct row_case cases[] = {
        /* the tally stops at 0, and then rises by all marks */
        {{SELF_ORGANISED, 3, 0, 0, 0, 0}, {9000}, 0, 100, 3, 3, 98},
        {{SELF_ORGANISED, 3, 0, 0, 0, 0}, {9000, 11250, 13500, 15750}, 2, 100, 3, 3, 101},
        {{SELF_ORGANISED, 3, 0, 0, 0, 0}, {2250, 9000}, 1, 100, 3, 3, 99},
        {{SELF_ORGANISED, 1, 0, 0, 0, 0}, {4500}, 0, 1, 1, 1, 1},
        {{SELF_ORGANISED, 6, 0, 0, 0, 0}, {15750}, 0, 100, 6, 6, 95},
        /* it falls by what is freed, and then stops at 20,250 */
        {{SELF_ORGANISED, 3, 0, 0, 0, 0}, {9000}, 20250, 100, 3, 20250, 98},
        /* the free count rises, and then stops at 0; or it stops at 20,250, and then falls by all marks */
        {{SELF_ORGANISED, 3, 0, 0, 0, 0}, {9000}, 5, 0, 3, 7, 0},
        {{SELF_ORGANISED, 3, 0, 0, 0, 0}, {9000}, 5, 20250, 3, 7, 20247},
        /* no step stops; nothing is freed; the offset comes last in any order */
        {{SELF_ORGANISED, 3, 0, 0, 0, 0}, {15750}, 1, 100, 3, 3, 98},
        {{SELF_ORGANISED, 7, 0, 0, 0, 0}, {15750}, 0, 100, 7, 6, 94},
        {{SELF_ORGANISED, 0, 100, 0, 0, 0}, {2250, 4500}, 0, 100, 1, 1, 101},
    };
    check_cases(&check, cases, COUNT_OF(cases), report);
}

static void test_marks_once(struct report *report)
{
    struct check check = {.name = "counts that do not fit: a kept slot inside the block is marked once"};
    static const struct row_case cases[] = {
        {{INCREMENTAL, 0, 0, 2250, 0, 1}, {0}, 0, 100, 1, 1, 99},
        {{INCREMENTAL, 0, 0, 2250, 0, 1}, {0}, 20249, 100, 1, 20250, 99},
        {{INCREMENTAL, 0, 0, 2250, 0, 1}, {0}, 20250, 100, 1, 20250, 99},
        /* a second mark would take one away here */
        {{INCREMENTAL, 0, 0, 2250, 0, 1}, {0}, 20251, 100, 1, 20251, 99},
        {{INCREMENTAL, 0, 0, 2250, 0, 1}, {0}, 65535, 100, 1, 65535, 99},
        {{INCREMENTAL, 0, 0, 2250, 0, 1}, {2250}, 20252, 100, 1, 20251, 100},
        {{INCREMENTAL, 0, 0, 2248, 4, 1}, {0}, 20251, 100, 5, 20251, 95},
        {{INCREMENTAL, 0, 0, 2248, 4, 1}, {2250}, 20252, 100, 5, 20251, 96},
    };
    check_cases(&check, cases, COUNT_OF(cases), report);
}

static void test_time_order(struct report *report)
{
    struct check check = {.name = "counts that do not fit: kept slot and block are marked in the order of time"};
    static const struct row_case cases[] = {
        /* the block first; a mark on a slot that the station holds adds one where the tally is 0, and nothing later */
        {{INCREMENTAL, 0, 0, 2249, 0, 1}, {2249}, 0, 100, 2, 2, 99},
        {{INCREMENTAL, 0, 0, 2249, 0, 1}, {2250}, 0, 100, 2, 1, 99},
        {{INCREMENTAL, 0, 0, 1, 4, 1}, {2250}, 0, 100, 6, 5, 95},
        {{INCREMENTAL, 0, 0, 2248, 4, 1}, {2250}, 0, 100, 5, 4, 96},
        /* the kept slot first */
        {{INCREMENTAL, 0, 0, 2251, 0, 1}, {2250}, 0, 100, 2, 2, 99},
        {{INCREMENTAL, 0, 0, 2251, 0, 1}, {2251}, 0, 100, 2, 1, 99},
    };
    check_cases(&check, cases, COUNT_OF(cases), report);
}

void rows_by_hand(struct report *report)
{
    test_times(report);
    test_frees_first(report);
    test_marks_once(report);
    test_time_order(report);
}
