/* marks_by_hand.c - hearing: which slot times are marked and freed, and MARKS, worked out by hand. */
#include "book_by_hand.h"
#include "book_case.h"

#define COUNT_OF(list) (sizeof(list) / sizeof(list)[0])

static struct lent lent;

static const size_t frames[] = {2250, 4500, 6750, 9000, 11250, 13500, 15750};

/* The places of now from which marks stay before the list's end, and go past it. */
static const size_t nows[] = {0, 1, 2249, 4501, 18000, 20249};

static void new_at(size_t now)
{
    lent_new(&lent);
    lent.book.now = now;
}

/* ---- self-organised ---- */

static void test_time_outs(struct report *report)
{
    struct check check = {.name = "time-out n marks the next n frames, not the present slot, not n + 1"};
    for (size_t i = 0; i < COUNT_OF(nows); i++) {
        for (uint32_t time_out = 0; time_out <= 7; time_out++) {
            new_at(nows[i]);
            struct outcome outcome = hear_self_organised(&lent, 500, time_out, 0);
            check_heard(&check, &lent, outcome, time_out, frames, time_out, "marks");
            check_that(&check, lent.book.channel.free == 20250 - time_out, "free count");
            check_that(&check, lent.book.now == nows[i], "now");
        }
    }
    check_report(&check, report);
}

static void test_frees(struct report *report)
{
    struct check check = {.name = "a frame after the time-out is freed if the station holds it, not another's or ours"};
    for (uint32_t first = 0; first <= 7; first++) {
        for (uint32_t then = 0; then <= 7; then++) {
            new_at(18000);
            hear_self_organised(&lent, 500, first, 0);
            struct outcome outcome = hear_self_organised(&lent, 500, then, 0);
            check_heard(&check, &lent, outcome, then, frames, then, "the later report decides");
            check_that(&check, lent.book.channel.free == 20250 - then, "free count");
        }
    }
    new_at(18000);
    hear_self_organised(&lent, 500, 0, 0);
    lent_put(&lent, 2250, 2);
    lent_put(&lent, 4500, 256);
    check_heard(&check, &lent, hear_self_organised(&lent, 500, 0, 0), 0, NULL, 0, "marks");
    check_that(&check, lent_holder(&lent, 2250) == 2 && lent_holder(&lent, 4500) == 256, "freed, but not its own");
    check_report(&check, report);
}

static void test_frees_no_others(struct report *report)
{
    struct check check = {.name = "only the seven frames are freed: not the present slot, the eighth, or one beside"};
    const size_t left[] = {0, 1, 2249, 2251, 15749, 15751, 18000, 20249};
    new_at(19000);
    hear_self_organised(&lent, 500, 7, 0);
    for (size_t i = 0; i < COUNT_OF(left); i++) {
        lent_put(&lent, left[i], 1);
    }
    check_heard(&check, &lent, hear_self_organised(&lent, 500, 0, 0), 0, left, COUNT_OF(left), "left");
    check_report(&check, report);
}

static void test_offsets(struct report *report)
{
    struct check check = {.name = "time-out 0 marks the offset, unless it is 0; a frame is freed first, then marked"};
    const size_t offsets[] = {1, 2249, 2250, 2251, 4500, 6750, 9000, 11250, 13500, 15750, 16383};
    for (size_t i = 0; i < COUNT_OF(nows); i++) {
        for (size_t k = 0; k < COUNT_OF(offsets); k++) {
            new_at(nows[i]);
            hear_self_organised(&lent, 500, 7, 0);
            struct outcome outcome = hear_self_organised(&lent, 500, 0, (uint32_t)offsets[k]);
            check_heard(&check, &lent, outcome, 1, &offsets[k], 1, "the offset alone");
            check_that(&check, lent.book.channel.free == 20249, "free count");
        }
    }
    for (uint32_t time_out = 1; time_out <= 7; time_out++) {
        new_at(0);
        struct outcome outcome = hear_self_organised(&lent, 500, time_out, 10000);
        check_heard(&check, &lent, outcome, time_out, frames, time_out, "no offset with another time-out");
    }
    check_report(&check, report);
}

/* ---- incremental ---- */

static const struct {
    uint32_t increment, slots_code;
    size_t first, slots;
} blocks[] = {
    {1, 0, 1, 1},       {1, 1, 1, 2},       {1, 2, 1, 3},       {1, 3, 1, 4},         {1, 4, 1, 5},
    {1, 5, 8193, 1},    {1, 6, 8193, 2},    {1, 7, 8193, 3},    {8191, 0, 8191, 1},   {8191, 4, 8191, 5},
    {8191, 5, 16383, 1}, {8191, 6, 16383, 2}, {8191, 7, 16383, 3}, {2250, 0, 2250, 1}, {4000, 2, 4000, 3},
    {0, 0, 0, 0},       {0, 4, 0, 0},       {0, 5, 0, 0},       {0, 7, 0, 0},
};

static size_t list_block(size_t block, size_t *aheads)
{
    for (size_t i = 0; i < blocks[block].slots; i++) {
        aheads[i] = blocks[block].first + i;
    }
    return blocks[block].slots;
}

static void test_blocks(struct report *report)
{
    struct check check = {.name = "the announced block by its code; increment 0 announces nothing"};
    for (size_t i = 0; i < COUNT_OF(nows); i++) {
        for (size_t block = 0; block < COUNT_OF(blocks); block++) {
            size_t aheads[5];
            size_t count = list_block(block, aheads);
            new_at(nows[i]);
            struct outcome outcome = hear_incremental(&lent, 500, blocks[block].increment, blocks[block].slots_code, 0);
            check_heard(&check, &lent, outcome, (uint32_t)count, aheads, count, "the block alone");
        }
    }
    check_report(&check, report);
}

static void test_keep(struct report *report)
{
    struct check check = {.name = "keep marks 2250 ahead, also beside nothing, and counts once inside the block"};
    const size_t alone[] = {2250}, inside[] = {2248, 2249, 2250, 2251, 2252}, first[] = {2250, 2251};
    const size_t last[] = {2249, 2250}, beside[] = {2249, 2250, 2251}, after[] = {2250, 2251};
    for (size_t i = 0; i < COUNT_OF(nows); i++) {
        new_at(nows[i]);
        check_heard(&check, &lent, hear_incremental(&lent, 500, 0, 4, 1), 1, alone, 1, "keep and increment 0");
        new_at(nows[i]);
        check_heard(&check, &lent, hear_incremental(&lent, 500, 0, 4, 0), 0, NULL, 0, "neither");
        new_at(nows[i]);
        check_heard(&check, &lent, hear_incremental(&lent, 500, 2248, 4, 1), 5, inside, 5, "inside the block");
        check_heard(&check, &lent, hear_incremental(&lent, 500, 2248, 4, 1), 5, inside, 5, "held before");
        new_at(nows[i]);
        check_heard(&check, &lent, hear_incremental(&lent, 500, 2250, 1, 1), 2, first, 2, "first of the block");
        new_at(nows[i]);
        check_heard(&check, &lent, hear_incremental(&lent, 500, 2249, 1, 1), 2, last, 2, "last of the block");
        new_at(nows[i]);
        check_heard(&check, &lent, hear_incremental(&lent, 500, 2251, 0, 1), 2, after, 2, "before the block");
        check_heard(&check, &lent, hear_incremental(&lent, 500, 2249, 0, 1), 2, beside, 3, "after the block");
    }
    check_report(&check, report);
}

static void test_incremental_frees_nothing(struct report *report)
{
    struct check check = {.name = "an incremental report frees nothing"};
    const size_t with_block[] = {2250, 4500, 6750, 9000, 11250, 13500, 15750, 100};
    new_at(12345);
    hear_self_organised(&lent, 500, 7, 0);
    check_heard(&check, &lent, hear_incremental(&lent, 500, 0, 0, 0), 0, frames, 7, "nothing announced");
    check_heard(&check, &lent, hear_incremental(&lent, 500, 100, 0, 0), 1, with_block, 8, "a block");
    check_heard(&check, &lent, hear_incremental(&lent, 500, 100, 0, 1), 2, with_block, 8, "a block and keep");
    check_report(&check, report);
}

/* ---- marks that meet others ---- */

static void test_replaces(struct report *report)
{
    struct check check = {.name = "a mark replaces another station's, whose tally falls; hearing sets no hold-off"};
    const size_t later[] = {6750, 9000, 11250, 13500, 15750};
    new_at(20000);
    hear_self_organised(&lent, 500, 7, 0);
    check_heard(&check, &lent, hear_self_organised(&lent, 600, 2, 0), 2, frames, 2, "the new holder");
    check_that(&check, lent_holds_only(&lent, 1, later, 5) && lent.records[0].tally == 5, "the old holder");
    check_that(&check, lent.book.channel.free == 20243, "free count");
    check_that(&check, lent.records[0].hold_off == 0 && lent.records[1].hold_off == 0, "hold-off");
    check_report(&check, report);
}

static void test_own_marks_stay(struct report *report)
{
    struct check check = {.name = "a mark never replaces our own and does not count there; the other slots are marked"};
    const size_t ours[] = {2250, 6750}, theirs[] = {4500, 9000}, block[] = {2248, 2249, 2251, 2252};
    const size_t at_offset[] = {777};
    new_at(20000);
    lent_put(&lent, 2250, 256);
    lent_put(&lent, 6750, 256);
    check_heard(&check, &lent, hear_self_organised(&lent, 500, 4, 0), 2, theirs, 2, "self-organised");
    check_that(&check, lent_holds_only(&lent, 256, ours, 2) && lent.book.channel.own == 2, "ours");
    check_heard(&check, &lent, hear_incremental(&lent, 600, 2248, 4, 1), 4, block, 4, "block and keep");
    check_heard(&check, &lent, hear_incremental(&lent, 700, 0, 0, 1), 0, NULL, 0, "keep");
    check_heard(&check, &lent, hear_self_organised(&lent, 700, 0, 2250), 0, NULL, 0, "offset on ours");
    check_heard(&check, &lent, hear_self_organised(&lent, 700, 0, 777), 1, at_offset, 1, "offset on none");
    check_that(&check, lent_holds_only(&lent, 256, ours, 2) && lent.book.channel.own == 2, "ours at the end");
    check_that(&check, lent.book.channel.free == 20250 - 2 - 2 - 4 - 1, "free count");
    check_report(&check, report);
}

void marks_by_hand(struct report *report)
{
    test_time_outs(report);
    test_frees(report);
    test_frees_no_others(report);
    test_offsets(report);
    test_blocks(report);
    test_keep(report);
    test_incremental_frees_nothing(report);
    test_replaces(report);
    test_own_marks_stay(report);
}
