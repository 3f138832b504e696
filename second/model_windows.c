/* model_windows.c - the windows of the slow model's plan. */
#include "model_windows.h"

bool model_has_plan(const struct model *model)
{
    return model->plan.rate >= 1 && model->plan.rate <= 30 && model->plan.start <= 2249;
}

/* The first ones lie before time 0. */
static long middle_of(const struct model *model, long number)
{
    long rate = model->plan.rate;
    return number / rate * 2250 + model->plan.start + 2250 * (number % rate) / rate - 2 * 2250;
}

long model_first_of(const struct model *model, long number)
{
    return middle_of(model, number) - 225 / model->plan.rate;
}

long model_last_of(const struct model *model, long number)
{
    return middle_of(model, number) + 225 / model->plan.rate;
}

long model_window_with(const struct model *model, long time)
{
    long number = time / 2250 * model->plan.rate;
    while (model_last_of(model, number) < time) {
        number++;
    }
    return model_first_of(model, number) <= time ? number : -1;
}

long model_window_meant(const struct model *model, uint32_t k)
{
    long number = k;
    while (model_first_of(model, number) <= (long)model->now) {
        number += model->plan.rate;
    }
    return number;
}

/* ---- the plan is kept ---- */

/* What has passed is what it was when it passed. */
static bool was_own(const struct model *model, const struct lent *lent, size_t time)
{
    return time < model->now ? model->holders[time] == MODEL_OWN : lent->slots[time % 20250] == HOLDER_OWN;
}

static bool within_bounds(long rate, long apart)
{
    long nearest = 2250 / rate - 2 * (225 / rate), farthest = (2250 + rate - 1) / rate + 2 * (225 / rate);
    return apart >= nearest && apart <= farthest;
}

bool model_keeps_plan(const struct model *model, const struct lent *lent, size_t from)
{
    long number_before = -2;
    size_t time_before = 0;
    for (size_t time = from; time < model->now + 20250; time++) {
        if (!was_own(model, lent, time)) {
            continue;
        }
        long number = model_has_plan(model) ? model_window_with(model, (long)time) : -1;
        bool neighbours = number == number_before + 1;
        if (number < 0 || number == number_before) {
            return false;
        }
        if (neighbours && !within_bounds(model->plan.rate, (long)(time - time_before))) {
            return false;
        }
        number_before = number;
        time_before = time;
    }
    return true;
}
