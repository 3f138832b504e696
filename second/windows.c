/* windows.c - the plan of the second program: its nominal slots and their windows.
 * Each function is one sentence of the paper, so that it can be checked by eye. */
#include "windows.h"

/* The slots that all windows together reach to each side, at most. */
enum { REACH = 225 };

/* ---- slot numbers ---- */

uint32_t second_nominal_slot(struct plan plan, uint32_t k)
{
    return (plan.start + SECOND_FRAME * k / plan.rate) % SECOND_FRAME;
}

uint32_t second_reach(struct plan plan)
{
    return REACH / plan.rate;
}

uint32_t second_window_slots(struct plan plan)
{
    return 2 * second_reach(plan) + 1;
}

uint32_t second_first_slot(struct plan plan, uint32_t k)
{
    return (second_nominal_slot(plan, k) + SECOND_FRAME - second_reach(plan)) % SECOND_FRAME;
}

static uint32_t present_slot_number(const struct book *book)
{
    return (uint32_t)(second_place(book, 0) % SECOND_FRAME);
}

/* How many slots after one slot number another one comes, 0 to 2249. */
static uint32_t slots_from_to(uint32_t from, uint32_t to)
{
    return (to + SECOND_FRAME - from) % SECOND_FRAME;
}

/* ---- slot times ---- */

/* A window that begins now has begun: the one meant is a frame later. */
size_t second_window_meant(const struct book *book, uint32_t k)
{
    uint32_t ahead = slots_from_to(present_slot_number(book), second_first_slot(book->channel.plan, k));
    return ahead == 0 ? SECOND_FRAME : ahead;
}

/* Windows do not overlap, so now lies in one of them at most. */
size_t second_next_coming(const struct book *book)
{
    struct plan plan = book->channel.plan;
    for (uint32_t k = 0; k < plan.rate; k++) {
        uint32_t place_in_window = slots_from_to(second_first_slot(plan, k), present_slot_number(book));
        if (place_in_window < second_window_slots(plan)) {
            return SECOND_FRAME - place_in_window;
        }
    }
    return 0;
}

bool second_first_own(const struct book *book, size_t first, size_t slots, size_t *distance)
{
    for (size_t ahead = first; ahead < first + slots; ahead++) {
        if (book->slots[second_place(book, ahead)] == HOLDER_OWN) {
            *distance = ahead;
            return true;
        }
    }
    return false;
}
