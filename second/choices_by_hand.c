/* choices_by_hand.c - the slot that is picked, its marks and the hold-offs, worked out by hand. The plan has rate 30
 * and start 100 where nothing else is said: window 0 then reaches from 93 to 107 ahead. */
#include "choosing_by_hand.h"
#include "choosing_case.h"

#define COUNT_OF(list) (sizeof(list) / sizeof(list)[0])

enum { RATE = 30, START = 100, FIRST = 93, SLOTS = 15, A = 1, B = 2, C = 3, D = 4 };

static struct lent lent, expected;

/* ---- the slot picked and its marks ---- */

/* The log of document 01: r 14, s 0, then twice k 0, m 3, d 5. */
static void test_log_of_the_paper(struct report *report)
{
    struct check check = {.name = "the log of document 01: own 2239 2239 33 0, refused 32, sum 20246 4 0"};
    const size_t aheads[] = {2239, 2239 + 2250, 2239 + 4500, 2239 + 6750};
    lent_new(&lent);
    second_plan(&lent.book, 14, 0);
    check_chosen(&check, &lent, 0, 3, 5, (struct chosen){2239, 2239, 33, 0}, "the first choice");
    check_choose(&check, &lent, 0, 3, 5, REFUSAL_WINDOW_OWN, "the second");
    check_that(&check, lent_holds_only(&lent, HOLDER_OWN, aheads, 4), "own marks");
    check_that(&check, lent.book.channel.free == 20246 && lent.book.channel.own == 4, "sum");
    check_report(&check, report);
}

static void test_marks(struct report *report)
{
    struct check check = {.name = "the slot picked is own at 0, 1, .. m frames after, round the list, nothing else"};
    const size_t nows[] = {0, 92, 93, 100, 107, 108, 2249, 4400, 18000, 20150, 20249};
    for (size_t i = 0; i < COUNT_OF(nows); i++) {
        for (uint32_t time_out = 3; time_out <= 7; time_out++) {
            for (uint32_t draw = 0; draw < SLOTS; draw++) {
                struct chosen chosen;
                lent_new_plan(&lent, RATE, START, nows[i]);
                uint32_t ahead = (uint32_t)second_window_meant(&lent.book, 0) + draw;
                expected = lent;
                for (size_t frame = 0; frame <= time_out; frame++) {
                    lent_put(&expected, ahead + 2250 * frame, HOLDER_OWN);
                }
                uint32_t number = second_choose(&lent.book, 0, time_out, draw, &chosen);
                check_that(&check, number == DONE && chosen.distance == ahead, "distance");
                check_that(&check, chosen.slot_number == FIRST + draw, "slot number");
                check_that(&check, chosen.candidates == SLOTS && chosen.replaced == 0, "candidates or replaced");
                check_that(&check, lent_same(&expected, &lent), "what a choice leaves");
            }
        }
    }
    check_report(&check, report);
}

/* The farthest that a mark can lie: the last slot of the window of rate 1, that begins 2250 ahead, with time-out 7. */
static void test_farthest_mark(struct report *report)
{
    struct check check = {.name = "the farthest mark of all lies 18,450 ahead: still in the book"};
    lent_new_plan(&lent, 1, 300, 75);
    check_chosen(&check, &lent, 0, 7, 450, (struct chosen){2700, 525, 451, 0}, "the last slot");
    check_that(&check, lent_holder(&lent, 18450) == HOLDER_OWN && lent.book.channel.own == 8, "marks");
    check_report(&check, report);
}

/* ---- draws ---- */

static uint32_t number_of_draw(uint32_t draw)
{
    struct chosen chosen;
    return second_choose(&lent.book, 0, 3, draw, &chosen);
}

static void test_draws(struct report *report)
{
    struct check check = {.name = "example 5: 33 candidates: draw 65,504 taken, 65,505 sent back"};
    lent_new_plan(&lent, 14, 0, 0);
    check_choose(&check, &lent, 0, 3, 65505, REFUSAL_DRAW, "65,505");
    check_choose(&check, &lent, 0, 3, 65535, REFUSAL_DRAW, "65,535");
    check_chosen(&check, &lent, 0, 3, 65504, (struct chosen){2234 + 32, 16, 33, 0}, "65,504: 65,504 mod 33 is 32");
    check_report(&check, report);
}

static void test_order_of_draws(struct report *report)
{
    struct check check = {.name = "number d mod n in time order is picked, counted from 0 among the candidates alone"};
    const size_t places[] = {1, 4, 13};
    for (uint32_t i = 0; i < 24; i++) {
        uint32_t draw = i < 12 ? i : 65536 - 24 + i;
        lent_new_plan(&lent, RATE, START, 0);
        lent_put_row(&lent, FIRST, SLOTS, A);
        for (size_t place = 0; place < COUNT_OF(places); place++) {
            lent_put(&lent, FIRST + places[place], HOLDER_NONE);
        }
        lent_station(&lent, A, 5);
        lent.records[A - 1].base = true;
        if (draw == 65535) {
            check_choose(&check, &lent, 0, 3, draw, REFUSAL_DRAW, "the one draw too many");
            continue;
        }
        uint32_t slot = FIRST + (uint32_t)places[draw % 3];
        check_chosen(&check, &lent, 0, 3, draw, (struct chosen){slot, slot, 3, 0}, "the candidate of a draw");
    }
    check_report(&check, report);
}

static void test_one_candidate(struct report *report)
{
    struct check check = {.name = "one candidate takes every draw"};
    const uint32_t draws[] = {0, 1, 2, 32767, 65534, 65535};
    for (size_t i = 0; i < COUNT_OF(draws); i++) {
        lent_new_plan(&lent, RATE, START, 0);
        lent_put_row(&lent, FIRST, SLOTS, A);
        lent.records[A - 1].base = true;
        lent_put(&lent, FIRST + 14, HOLDER_NONE);
        check_that(&check, number_of_draw(draws[i]) == DONE && lent_holder(&lent, FIRST + 14) == HOLDER_OWN, "draw");
    }
    check_report(&check, report);
}

/* ---- reuse ---- */

/* No free slot. The first is held by A, in the next frames by A and B again; three more are held by C and D. */
static void make_reuse(void)
{
    lent_new_plan(&lent, RATE, START, 0);
    lent_put_row(&lent, FIRST, SLOTS, 200);
    lent.records[199].base = true;
    lent_station(&lent, A, 900);
    lent_station(&lent, B, 800);
    lent_station(&lent, C, 700);
    lent_station(&lent, D, 600);
    lent_put(&lent, FIRST, A);
    lent_put(&lent, FIRST + 2250, A);
    lent_put(&lent, FIRST + 2 * 2250, B);
    lent_put(&lent, FIRST + 4 * 2250, C);
    lent_put(&lent, FIRST + 3, C);
    lent_put(&lent, FIRST + 5, C);
    lent_put(&lent, FIRST + 9, D);
    lent_put(&lent, 15000, A);
}

static void test_reuse(struct report *report)
{
    struct check check = {.name = "reuse: marks replaced are counted, their stations held off for 2250, and no other"};
    const size_t aheads[] = {15000};
    make_reuse();
    check_chosen(&check, &lent, 0, 3, 4, (struct chosen){FIRST, FIRST, 4, 3}, "two marks of A and one of B");
    check_that(&check, lent.records[A - 1].hold_off == 2250 && lent.records[B - 1].hold_off == 2250, "held off");
    check_that(&check, lent.records[C - 1].hold_off == 0 && lent.records[D - 1].hold_off == 0, "not picked");
    check_that(&check, lent.records[199].hold_off == 0, "the base");
    check_that(&check, lent.records[A - 1].tally == 1 && lent_holds_only(&lent, A, aheads, 1), "what A keeps");
    check_that(&check, lent.records[B - 1].tally == 0 && lent_holder(&lent, FIRST + 4 * 2250) == C, "B and C");
    check_that(&check, lent.book.channel.own == 4, "own");
    make_reuse();
    check_chosen(&check, &lent, 0, 4, 4, (struct chosen){FIRST, FIRST, 4, 4}, "one of C too");
    check_that(&check, lent.records[C - 1].hold_off == 2250 && lent.records[D - 1].hold_off == 0, "C is held off");
    check_report(&check, report);
}

/* A holds two windows in every frame, and has lost a slot of the one. */
static void test_hold_off(struct report *report)
{
    struct check check = {.name = "a station held off is available again after exactly 2250 passes"};
    lent_new_plan(&lent, RATE, START, 0);
    lent_station(&lent, A, 900);
    for (size_t frame = 0; frame <= 8; frame++) {
        lent_put_row(&lent, FIRST + 2250 * frame, SLOTS, A);
        lent_put_row(&lent, FIRST + 75 + 2250 * frame, SLOTS, A);
    }
    check_choose(&check, &lent, 0, 3, 0, DONE, "while it is not held off");
    check_choose(&check, &lent, 1, 3, 0, REFUSAL_NO_CANDIDATE, "held off, in every window");
    second_pass(&lent.book, 2249);
    check_choose(&check, &lent, 1, 3, 0, REFUSAL_NO_CANDIDATE, "after 2249 passes");
    second_pass(&lent.book, 1);
    check_choose(&check, &lent, 1, 3, 0, DONE, "after 2250");
    check_report(&check, report);
}

/* Nobody loses a mark where a free slot is picked, though available ones were candidates too. */
static void test_free_slot_picked(struct report *report)
{
    struct check check = {.name = "a free slot picked beside available candidates holds nobody off"};
    make_reuse();
    lent_put(&lent, FIRST + 9, HOLDER_NONE);
    check_chosen(&check, &lent, 0, 3, 3, (struct chosen){FIRST + 9, FIRST + 9, 4, 0}, "the free one");
    for (size_t i = 0; i < SECOND_RECORDS; i++) {
        check_that(&check, lent.records[i].hold_off == 0, "a hold-off");
    }
    check_report(&check, report);
}

/* ---- books not grown from a new one ---- */

static void test_counts_stop(struct report *report)
{
    struct check check = {.name = "counts that do not fit: each mark of a choice is a step down and one up, and stops"};
    static const struct {
        uint16_t free, own, tally_a, tally_b;
        uint16_t free_after, own_after, tally_a_after, tally_b_after;
    } cases[] = {
        {20000, 0, 2, 1, 19999, 4, 0, 0},         {0, 20247, 1, 0, 0, 20250, 0, 0},
        {1, 20250, 0, 5, 0, 20250, 0, 4},         {20251, 20251, 20251, 65535, 20250, 20251, 20249, 65534},
        {65535, 65535, 65535, 1, 65534, 65535, 65533, 0},
    };
    for (size_t i = 0; i < COUNT_OF(cases); i++) {
        make_reuse();
        lent.book.channel.free = cases[i].free;
        lent.book.channel.own = cases[i].own;
        lent.records[A - 1].tally = cases[i].tally_a;
        lent.records[B - 1].tally = cases[i].tally_b;
        check_chosen(&check, &lent, 0, 3, 0, (struct chosen){FIRST, FIRST, 4, 3}, "choice");
        check_that(&check, lent.book.channel.free == cases[i].free_after, "free");
        check_that(&check, lent.book.channel.own == cases[i].own_after, "own");
        check_that(&check, lent.records[A - 1].tally == cases[i].tally_a_after, "tally of A");
        check_that(&check, lent.records[B - 1].tally == cases[i].tally_b_after, "tally of B");
    }
    check_report(&check, report);
}

static void test_now_out_of_range(struct report *report)
{
    struct check check = {.name = "a now out of range is taken modulo its range, and given back as it was"};
    const size_t nows[] = {20250, 20250 + 93, 40500 + 2249, 65535, 4294967295};
    for (size_t i = 0; i < COUNT_OF(nows); i++) {
        lent_new_plan(&lent, RATE, START, nows[i] % 20250);
        expected = lent;
        expected.book.slots = expected.slots;
        expected.book.records = expected.records;
        struct chosen chosen = chosen_nothing, expected_chosen = chosen_nothing;
        lent.book.now = nows[i];
        uint32_t number = second_choose(&lent.book, 0, 5, 3, &chosen);
        uint32_t expected_number = second_choose(&expected.book, 0, 5, 3, &expected_chosen);
        check_that(&check, number == DONE && expected_number == DONE, "number");
        check_that(&check, chosen_same(&chosen, &expected_chosen), "answer");
        expected.book.now = nows[i];
        check_that(&check, lent_same(&expected, &lent), "what a choice leaves");
    }
    check_report(&check, report);
}

void choices_by_hand(struct report *report)
{
    test_log_of_the_paper(report);
    test_marks(report);
    test_farthest_mark(report);
    test_draws(report);
    test_order_of_draws(report);
    test_one_candidate(report);
    test_reuse(report);
    test_hold_off(report);
    test_free_slot_picked(report);
    test_counts_stop(report);
    test_now_out_of_range(report);
}
