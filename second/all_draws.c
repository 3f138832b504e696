/* all_draws.c - tries every one of the 65,536 draws of a window. */
#include "all_draws.h"

#include <string.h>

#define COUNT_OF(list) (sizeof(list) / sizeof(list)[0])

static struct lent lent, before;
static struct window window;
static uint32_t draws[SECOND_WINDOW_MAX]; /* that picked each slot of the window */

/* Takes a choice back: the times of its set, the counts and the hold-offs. */
static void undo(struct lent *changed, size_t ahead, uint32_t time_out)
{
    for (size_t frame = 0; frame <= time_out; frame++) {
        size_t place = (before.book.now + ahead + 2250 * frame) % 20250;
        changed->slots[place] = before.slots[place];
    }
    memcpy(changed->records, before.records, sizeof before.records);
    changed->book.channel = before.book.channel;
}

static void try_draw(struct check *check, struct lent *tried, uint32_t k, uint32_t time_out, uint32_t draw)
{
    struct chosen chosen = chosen_nothing;
    uint32_t number = second_choose(&tried->book, k, time_out, draw, &chosen);
    if (number != DONE) {
        check_that(check, number == REFUSAL_DRAW && lent_same(&before, tried), "a draw that picks no slot");
        return;
    }
    size_t place = chosen.distance - window.first;
    bool in_window = place < window.slots;
    check_that(check, in_window && lent_holder(tried, chosen.distance) == HOLDER_OWN, "not in the window");
    draws[in_window ? place : 0]++;
    undo(tried, chosen.distance, time_out);
}

void check_all_draws(struct check *check, struct lent *tried, uint32_t k, uint32_t time_out)
{
    uint32_t picked = 0;
    memset(draws, 0, sizeof draws);
    second_window(&tried->book, k, time_out, &window);
    before = *tried;
    for (uint32_t draw = 0; draw < 65536; draw++) {
        try_draw(check, tried, k, time_out, draw);
    }
    for (size_t place = 0; place < window.slots; place++) {
        size_t share = window.slot[place].candidate ? 65536 / window.candidates : 0;
        check_that(check, draws[place] == share, "not equally many draws");
        picked += draws[place];
    }
    check_that(check, picked == 65536 - 65536 % window.candidates, "draws sent back");
    check_that(check, lent_same(&before, tried), "the book is left as it was");
}

/* ---- by hand ---- */

/* The window has so many free slots and so many of a mobile's, the others are a base station's. */
struct mixture {
    uint32_t rate;
    size_t free, available, candidates;
};

static const struct mixture mixtures[] = {
    {30, 1, 0, 1}, {30, 0, 1, 1},   {30, 1, 1, 2},    {30, 0, 3, 3},   {30, 2, 1, 3}, {30, 4, 0, 4},
    {30, 0, 9, 4}, {30, 3, 12, 4},  {30, 5, 10, 5},   {30, 15, 0, 15}, {14, 33, 0, 33}, {14, 7, 26, 7},
    {1, 451, 0, 451}, {1, 2, 400, 4},
};

/* The slots are dealt out all over the window: free ones first, then the mobile's, 7 places on each time. */
static void deal(const struct mixture *mixture)
{
    lent_new_plan(&lent, mixture->rate, 1000, 20000);
    size_t first = second_window_meant(&lent.book, 0), slots = second_window_slots(lent.book.channel.plan);
    lent_put_row(&lent, first, slots, 200);
    lent.records[199].base = true;
    lent_station(&lent, 1, 700);
    for (size_t i = 0; i < mixture->free + mixture->available; i++) {
        lent_put(&lent, first + 7 * i % slots, i < mixture->free ? HOLDER_NONE : 1);
    }
}

void all_draws_by_hand(struct report *report)
{
    struct check check = {.name = "all draws of windows with 1 to 451 candidates (example 6: 4 have 16,384 each)"};
    for (size_t i = 0; i < COUNT_OF(mixtures); i++) {
        deal(&mixtures[i]);
        check_all_draws(&check, &lent, 0, i % 2 == 0 ? 3 : 7);
        check_that(&check, window.candidates == mixtures[i].candidates, "candidates");
    }
    check_report(&check, report);
}
