/* choosing_drawn.c - the random numbers of sequences of calls with choosing and report among them. */
#include "choosing_calls.h"

enum { NOW_AND_THEN = 40 };

/* Here each number is drawn in a statement of its own, so that every compiler draws alike. */
bool now_and_then(struct choosing_run *run)
{
    return random_below(&run->random, NOW_AND_THEN) == 0;
}

uint32_t drawn(struct choosing_run *run, uint32_t first, uint32_t last)
{
    return (uint32_t)random_from_to(&run->random, first, last);
}

/* Often one that is held off, where there is one: it may then hold a whole window. */
uint16_t drawn_station(struct choosing_run *run)
{
    uint16_t station = (uint16_t)drawn(run, 1, run->waters->stations);
    bool held_off_first = drawn(run, 0, 2) == 0;
    for (size_t i = 0; held_off_first && i < SECOND_RECORDS; i++) {
        if (run->model.records[i].held_off_until > run->model.now) {
            return run->model.records[i].station;
        }
    }
    return station;
}

/* The first own mark past now; where there is none, not far. */
static uint32_t passes_to_own(struct choosing_run *run)
{
    size_t distance = drawn(run, 0, 500);
    second_first_own(&run->lent.book, 1, SECOND_SLOTS - 1, &distance);
    return (uint32_t)distance;
}

static uint32_t passes_into_window(struct choosing_run *run)
{
    if (!model_has_plan(&run->model)) {
        return 0;
    }
    long number = model_window_meant(&run->model, drawn(run, 0, run->model.plan.rate - 1u));
    long slots = model_last_of(&run->model, number) - model_first_of(&run->model, number) + 1;
    uint32_t place = drawn(run, 0, 2) == 0 ? 0 : drawn(run, 0, (uint32_t)slots - 1);
    return (uint32_t)(model_first_of(&run->model, number) - (long)run->model.now) + place;
}

uint32_t drawn_passes(struct choosing_run *run)
{
    switch (drawn(run, 0, 7)) {
    case 0:
        return drawn(run, 0, 60);
    case 1:
        return SECOND_FRAME;
    case 2:
        return passes_into_window(run);
    default:
        return passes_to_own(run);
    }
}

/* Mostly the window that now lies in, or the one that was crowded last. */
uint32_t drawn_window(struct choosing_run *run)
{
    uint32_t rate = run->model.plan.rate;
    long number = model_has_plan(&run->model) ? model_window_with(&run->model, (long)run->model.now) : -1;
    if (number >= 0 && random_coin(&run->random)) {
        return (uint32_t)(number % rate);
    }
    if (random_coin(&run->random)) {
        return run->crowded;
    }
    return rate == 0 || now_and_then(run) ? rate : drawn(run, 0, rate - 1);
}

uint32_t drawn_draw(struct choosing_run *run)
{
    if (now_and_then(run)) {
        return 65536;
    }
    return drawn(run, 0, 7) == 0 ? 65535 : drawn(run, 0, 65535);
}
