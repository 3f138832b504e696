/* choosing_model.c - choosing and report by the slow model of the slot book. */
#include "choosing_model.h"

#include <stdlib.h>

/* ---- what a window slot is ---- */

static bool is_known(int64_t latitude, int64_t longitude)
{
    return labs((long)latitude) <= 54000000 && labs((long)longitude) <= 108000000;
}

static bool ship_known(const struct model *model)
{
    return is_known(model->ship.latitude, model->ship.longitude);
}

static const struct model_record *record_with(const struct model *model, uint16_t station)
{
    const struct model_record *record = model->records;
    while (record->station != station) {
        record++;
    }
    return record;
}

/* Round the earth eastward from the one to the other, and on to the one. */
static int64_t distance_to(const struct model *model, const struct model_record *record)
{
    int64_t eastward = ((int64_t)record->longitude - model->ship.longitude + 2 * 216000000LL) % 216000000;
    int64_t westward = (216000000 - eastward) % 216000000;
    int64_t northward = (int64_t)record->latitude - model->ship.latitude;
    return (northward < 0 ? -northward : northward) + (eastward < westward ? eastward : westward);
}

/* Of all times of the set: how many are own, held, held by one that may not be replaced, and held off besides. */
struct set {
    unsigned own, held, barred, held_off;
    int64_t nearest;
};

static void count_holder(const struct model *model, struct set *set, uint16_t holder)
{
    if (holder == MODEL_OWN || holder == 0) {
        set->own += holder == MODEL_OWN;
        return;
    }
    const struct model_record *record = record_with(model, holder);
    bool barred = record->base || !is_known(record->latitude, record->longitude) || !ship_known(model);
    set->held++;
    set->barred += barred;
    set->held_off += record->held_off_until > model->now;
    if (!barred && (set->nearest < 0 || distance_to(model, record) < set->nearest)) {
        set->nearest = distance_to(model, record);
    }
}

static struct set set_of(const struct model *model, size_t time, uint32_t time_out)
{
    struct set set = {.nearest = -1};
    for (size_t frame = 0; frame <= time_out; frame++) {
        count_holder(model, &set, model->holders[time + 2250 * frame]);
    }
    return set;
}

static bool own_earlier(const struct model *model, size_t time)
{
    return time >= model->now + 2250 && model->holders[time - 2250] == MODEL_OWN;
}

static void look_at(const struct model *model, struct model_window *window, size_t time, uint32_t time_out)
{
    struct set set = set_of(model, time, time_out);
    bool replaceable = set.barred == 0 && set.held_off == 0;
    enum slot_state by_others = set.held == 0 ? SLOT_FREE : replaceable ? SLOT_AVAILABLE : SLOT_BARRED;
    bool earlier = own_earlier(model, time);
    struct model_slot *slot = &window->slots[window->count++];
    slot->time = time;
    slot->state = set.own > 0 ? SLOT_OWN : earlier ? SLOT_OWN_EARLIER : by_others;
    slot->distance = slot->state == SLOT_AVAILABLE ? set.nearest : 0;
    slot->candidate = false;
    window->free += slot->state == SLOT_FREE;
    window->available += slot->state == SLOT_AVAILABLE;
    window->only_held_off |= slot->state == SLOT_BARRED && set.barred == 0;
    window->earlier_bars |= slot->state == SLOT_OWN_EARLIER && by_others != SLOT_BARRED;
}

/* ---- candidates ---- */

static int order_of_preference(const void *left, const void *right)
{
    const struct model_slot *one = *(struct model_slot *const *)left, *other = *(struct model_slot *const *)right;
    if (one->state != other->state) {
        return one->state == SLOT_FREE ? -1 : 1;
    }
    if (one->distance != other->distance) {
        return one->distance > other->distance ? -1 : 1;
    }
    return one->time < other->time ? -1 : 1;
}

/* Free slots first, then the farther ones first, then the earlier. All free ones are taken, at least four in all. */
static void take_candidates(struct model_window *window)
{
    struct model_slot *sorted[SECOND_WINDOW_MAX];
    size_t count = 0, wanted = window->free > 4 ? window->free : 4;
    for (size_t i = 0; i < window->count; i++) {
        if (window->slots[i].state == SLOT_FREE || window->slots[i].state == SLOT_AVAILABLE) {
            sorted[count++] = &window->slots[i];
        }
    }
    qsort(sorted, count, sizeof sorted[0], order_of_preference);
    window->candidates = wanted < count ? wanted : count;
    for (size_t i = 0; i < window->candidates; i++) {
        sorted[i]->candidate = true;
    }
    window->tie_at_the_end = window->free < 4 && count > 4 && sorted[3]->distance == sorted[4]->distance;
}

void model_window(const struct model *model, uint32_t k, uint32_t time_out, struct model_window *window)
{
    long number = model_window_meant(model, k);
    window->count = window->free = window->available = window->candidates = 0;
    window->tie_at_the_end = window->only_held_off = window->earlier_bars = false;
    for (long time = model_first_of(model, number); time <= model_last_of(model, number); time++) {
        look_at(model, window, (size_t)time, time_out);
    }
    take_candidates(window);
}

/* ---- choosing ---- */

static bool has_own(const struct model *model, const struct model_window *window)
{
    bool own = false;
    for (size_t i = 0; i < window->count; i++) {
        own = own || model->holders[window->slots[i].time] == MODEL_OWN;
    }
    return own;
}

static size_t picked_time(const struct model_window *window, size_t number)
{
    size_t times[SECOND_WINDOW_MAX], count = 0;
    for (size_t i = 0; i < window->count; i++) {
        if (window->slots[i].candidate) {
            times[count++] = window->slots[i].time;
        }
    }
    return times[number];
}

uint32_t model_choose_slot(struct model *model, uint32_t k, uint32_t time_out, uint32_t draw, struct chosen *chosen)
{
    struct model_window window;
    if (!model_has_plan(model)) {
        return 31;
    }
    if (k >= model->plan.rate || time_out < 3 || time_out > 7 || draw > 65535) {
        return 30;
    }
    model_window(model, k, time_out, &window);
    if (has_own(model, &window) || window.candidates == 0) {
        return has_own(model, &window) ? 32 : 33;
    }
    size_t n = window.candidates;
    if (draw / n >= 65536 / n) {
        return 34;
    }
    size_t time = picked_time(&window, draw % n), ahead = time - model->now;
    struct set set = set_of(model, time, time_out);
    *chosen = (struct chosen){(uint32_t)ahead, (uint32_t)(time % 2250), (uint32_t)n, set.held};
    for (size_t frame = 0; frame <= time_out; frame++) {
        model_choose(model, ahead + 2250 * frame);
    }
    return 0;
}

/* ---- report ---- */

static uint32_t stations_holding(const struct model *model)
{
    bool holds[MODEL_OWN + 1] = {false};
    uint32_t stations = 0;
    for (size_t ahead = 0; ahead < 20250; ahead++) {
        uint16_t holder = model->holders[model->now + ahead];
        stations += holder != 0 && holder != MODEL_OWN && !holds[holder];
        holds[holder] = true;
    }
    return stations;
}

/* Where now is own, it lies in a window; the next coming of it has the number higher by the rate. */
static uint32_t offset_to_next(const struct model *model)
{
    long next = model_window_with(model, (long)model->now) + model->plan.rate;
    for (long time = model_first_of(model, next); time <= model_last_of(model, next); time++) {
        if (model->holders[time] == MODEL_OWN) {
            return (uint32_t)(time - (long)model->now);
        }
    }
    return 0;
}

uint32_t model_report(const struct model *model, uint32_t hour, uint32_t minute, struct reported *reported)
{
    const uint16_t *now = &model->holders[model->now];
    uint32_t n = 0;
    if (!model_has_plan(model)) {
        return 31;
    }
    if (hour > 23 || minute > 59 || *now != MODEL_OWN) {
        return hour > 23 || minute > 59 ? 30 : 36;
    }
    for (size_t frames = 7; frames >= 1; frames--) {
        n = now[2250 * frames] == MODEL_OWN ? n + 1 : 0;
    }
    *reported = (struct reported){.time_out = n};
    reported->offset = n == 0 ? offset_to_next(model) : 0;
    reported->hour = n == 1 ? hour : 0;
    reported->minute = n == 1 ? minute : 0;
    reported->slot_number = n == 2 || n == 4 || n == 6 ? (uint32_t)(model->now % 2250) : 0;
    reported->stations = n == 3 || n == 5 || n == 7 ? stations_holding(model) : 0;
    return 0;
}
