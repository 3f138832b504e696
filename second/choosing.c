/* choosing.c - choosing of the second program: the candidates of a window, and the one that a draw picks.
 * Each function is one sentence of the paper, so that it can be checked by eye; each window slot is looked at once. */
#include "choosing.h"

/* With fewer free slots than this, available ones are added. */
enum { ENOUGH = 4 };

enum { ROUND = 216000000, HOLD_OFF = 2250 };

/* ---- distance ---- */

static uint32_t difference(int32_t one, int32_t other)
{
    return (uint32_t)(one > other ? one - other : other - one);
}

/* No two known positions are farther apart than 216,000,000 in either direction, so 32 bits hold everything. */
uint32_t second_distance(int32_t latitude, int32_t longitude, int32_t other_latitude, int32_t other_longitude)
{
    uint32_t one_way = difference(longitude, other_longitude);
    uint32_t other_way = ROUND - one_way;
    return difference(latitude, other_latitude) + (one_way < other_way ? one_way : other_way);
}

/* ---- a window slot ---- */

/* What is the same for all slots of a window. */
struct view {
    const struct book *book;
    uint32_t time_out;
    bool own_position_known;
};

/* NULL where there is none: nobody, ourselves, and the holder numbers above. */
static const struct station *station_of(const struct book *book, uint16_t holder)
{
    return holder >= 1 && holder <= SECOND_RECORDS ? &book->records[holder - 1] : NULL;
}

/* A holder without a record counts as a base station. */
static bool may_be_replaced(const struct station *station)
{
    return station != NULL && !station->base && second_is_known(station->latitude, station->longitude)
        && station->hold_off == 0;
}

static uint32_t distance_from_us(const struct book *book, const struct station *station)
{
    return second_distance(book->ship.latitude, book->ship.longitude, station->latitude, station->longitude);
}

/* One more holder of the set: it is free as long as all are, and available as long as every holder may be replaced. */
static void add_holder(const struct view *view, struct window_slot *slot, uint16_t holder)
{
    if (holder == HOLDER_NONE || slot->state == SLOT_BARRED) {
        return;
    }
    const struct station *station = station_of(view->book, holder);
    if (!view->own_position_known || !may_be_replaced(station)) {
        *slot = (struct window_slot){.state = SLOT_BARRED};
        return;
    }
    uint32_t distance = distance_from_us(view->book, station);
    if (slot->state == SLOT_FREE || distance < slot->distance) {
        *slot = (struct window_slot){.state = SLOT_AVAILABLE, .distance = distance};
    }
}

/* Of a time less than a frame ahead the same slot a frame earlier has passed: that is no longer in the book. */
static bool is_own_a_frame_earlier(const struct book *book, size_t ahead)
{
    return ahead >= SECOND_FRAME && book->slots[second_place(book, ahead - SECOND_FRAME)] == HOLDER_OWN;
}

static size_t a_frame_later(size_t place)
{
    return place + SECOND_FRAME < SECOND_SLOTS ? place + SECOND_FRAME : place + SECOND_FRAME - SECOND_SLOTS;
}

static struct window_slot look_at(const struct view *view, size_t ahead)
{
    const struct book *book = view->book;
    struct window_slot slot = {.state = SLOT_FREE};
    size_t place = second_place(book, ahead);
    for (uint32_t frame = 0; frame <= view->time_out; frame++) {
        if (book->slots[place] == HOLDER_OWN) {
            return (struct window_slot){.state = SLOT_OWN};
        }
        add_holder(view, &slot, book->slots[place]);
        place = a_frame_later(place);
    }
    return is_own_a_frame_earlier(book, ahead) ? (struct window_slot){.state = SLOT_OWN_EARLIER} : slot;
}

/* ---- candidates ---- */

static void make_candidate(struct window *window, struct window_slot *slot)
{
    slot->candidate = true;
    window->candidates++;
}

/* Of those as far as each other the earlier one stays the farthest. */
static struct window_slot *farthest_available_left(struct window *window)
{
    struct window_slot *farthest = NULL;
    for (size_t i = 0; i < window->slots; i++) {
        struct window_slot *slot = &window->slot[i];
        bool left = slot->state == SLOT_AVAILABLE && !slot->candidate;
        if (left && (farthest == NULL || slot->distance > farthest->distance)) {
            farthest = slot;
        }
    }
    return farthest;
}

static void add_available(struct window *window)
{
    while (window->candidates < ENOUGH) {
        struct window_slot *slot = farthest_available_left(window);
        if (slot == NULL) {
            return;
        }
        make_candidate(window, slot);
    }
}

void second_window(const struct book *book, uint32_t k, uint32_t time_out, struct window *window)
{
    bool own_position_known = second_is_known(book->ship.latitude, book->ship.longitude);
    const struct view view = {book, time_out, own_position_known};
    window->first = second_window_meant(book, k);
    window->slots = second_window_slots(book->channel.plan);
    window->candidates = 0;
    for (size_t i = 0; i < window->slots; i++) {
        struct window_slot *slot = &window->slot[i];
        *slot = look_at(&view, window->first + i);
        if (slot->state == SLOT_FREE) {
            make_candidate(window, slot);
        }
    }
    add_available(window);
}

/* ---- picking ---- */

/* Draws past the last whole round of candidates would favour the early ones. */
static bool is_sent_back(uint32_t draw, size_t candidates)
{
    return draw >= candidates * (SECOND_DRAWS / candidates);
}

/* How far ahead the candidate of this number is, counted from 0 in time order. */
static size_t candidate_ahead(const struct window *window, size_t number)
{
    size_t i = 0;
    for (size_t passed = 0; !window->slot[i].candidate || passed < number; i++) {
        passed += window->slot[i].candidate;
    }
    return window->first + i;
}

/* Marks one time of a candidate's set, whose holders all have records; returns whether a mark was replaced. */
static bool mark_own(struct book *book, size_t place)
{
    uint16_t holder = book->slots[place];
    second_hand_over(book, place, HOLDER_OWN);
    if (holder == HOLDER_NONE) {
        return false;
    }
    book->records[holder - 1].hold_off = HOLD_OFF;
    return true;
}

static uint32_t mark_set_own(struct book *book, size_t ahead, uint32_t time_out)
{
    uint32_t replaced = 0;
    size_t place = second_place(book, ahead);
    for (uint32_t frame = 0; frame <= time_out; frame++) {
        replaced += mark_own(book, place);
        place = a_frame_later(place);
    }
    return replaced;
}

/* ---- choosing ---- */

static bool in_range(struct plan plan, uint32_t k, uint32_t time_out, uint32_t draw)
{
    return k < plan.rate && time_out >= SECOND_TIME_OUT_MIN && time_out <= SECOND_TIME_OUT_MAX && draw < SECOND_DRAWS;
}

static bool window_has_own_mark(const struct book *book, uint32_t k)
{
    size_t distance;
    return second_first_own(book, second_window_meant(book, k), second_window_slots(book->channel.plan), &distance);
}

/* The last number is asked for as the table has it, though no plan leads to it: the farthest mark lies 18,450 ahead. */
uint32_t second_choose(struct book *book, uint32_t k, uint32_t time_out, uint32_t draw, struct chosen *chosen)
{
    if (!second_lengths_fit(book)) {
        return REFUSAL_LIST_LENGTH;
    }
    if (!second_is_plan(book->channel.plan.rate, book->channel.plan.start)) {
        return REFUSAL_NO_PLAN;
    }
    if (!in_range(book->channel.plan, k, time_out, draw)) {
        return REFUSAL_RANGE;
    }
    if (window_has_own_mark(book, k)) {
        return REFUSAL_WINDOW_OWN;
    }
    struct window window;
    second_window(book, k, time_out, &window);
    if (window.candidates == 0) {
        return REFUSAL_NO_CANDIDATE;
    }
    if (is_sent_back(draw, window.candidates)) {
        return REFUSAL_DRAW;
    }
    size_t ahead = candidate_ahead(&window, draw % window.candidates);
    if (ahead + SECOND_FRAME * time_out >= SECOND_SLOTS) {
        return REFUSAL_BEYOND;
    }
    chosen->distance = (uint32_t)ahead;
    chosen->slot_number = (uint32_t)(second_place(book, ahead) % SECOND_FRAME);
    chosen->candidates = (uint32_t)window.candidates;
    chosen->replaced = mark_set_own(book, ahead, time_out);
    return DONE;
}
