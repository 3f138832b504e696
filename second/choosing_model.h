/* choosing_model.h - choosing and report by the slow model of the slot book, for the tests alone. It shares nothing
 * with choosing: its slot times never come round, its windows are counted through all frames, and it sorts. */
#ifndef SECOND_CHOOSING_MODEL_H
#define SECOND_CHOOSING_MODEL_H

#include "choosing.h"
#include "model_windows.h"
#include "reporting.h"

struct model_slot {
    size_t time;
    enum slot_state state;
    int64_t distance; /* where it is available, otherwise 0 */
    bool candidate;
};

struct model_window {
    struct model_slot slots[SECOND_WINDOW_MAX]; /* in time order */
    size_t count, free, available, candidates;
    bool tie_at_the_end; /* the one that was added last is as far as one that was not added */
    bool only_held_off;  /* a slot would be available if nobody were held off */
    bool earlier_bars;   /* a slot would be free or available if it were not own a frame earlier */
};

/* The window meant and its candidates, for a plan in range and k below its rate. */
void model_window(const struct model *model, uint32_t k, uint32_t time_out, struct model_window *window);

/* Each gives the number that the call is to give back, as far as the lists are in order. */
uint32_t model_choose_slot(struct model *model, uint32_t k, uint32_t time_out, uint32_t draw, struct chosen *chosen);
uint32_t model_report(const struct model *model, uint32_t hour, uint32_t minute, struct reported *reported);

#endif
