/* choosing_notes.c - notes what occurs in sequences of calls with choosing and report among them. */
#include "choosing_calls.h"

const char *const choosing_occurrence_names[CHOOSING_OCCURRENCES] = {
    [FEW_FREE] = "one to three free slots, and available ones are added",
    [NONE_FREE] = "no free slot, and available ones are added",
    [FEW_CANDIDATES] = "fewer than four candidates in all",
    [TIE_AT_THE_FOURTH] = "a tie at the fourth place",
    [HELD_OFF] = "a slot is barred by a hold-off alone",
    [HELD_OFF_NO_CANDIDATE] = "no candidate, and a slot is barred by a hold-off alone",
    [BARRED_BY_EARLIER] = "a slot is no candidate only because it is own a frame earlier",
    [WINDOW_ROUND_THE_END] = "a window goes round the list's end",
    [MARKS_ROUND_THE_END] = "the marks of a choice go round the list's end",
    [NOW_FIRST_OF_WINDOW] = "now is the first slot of the window chosen in",
    [NOW_INSIDE_WINDOW] = "now lies in the window chosen in, past its first slot",
    [NOW_OWN_IN_WINDOW] = "now is own in the window chosen in",
    [REUSE] = "a choice replaces marks",
    [REUSE_OF_SEVERAL] = "a choice replaces marks of several stations",
    [FREE_PICKED_AMONG_FEW] = "a free slot is picked where available ones were added",
    [OFFSET_FOUND] = "a report with an offset",
    [OFFSET_NOT_FOUND] = "a report with time-out 0 and no slot chosen",
};

static bool is_reuse(const struct model_window *window)
{
    return window->free < 4 && window->candidates > window->free;
}

static void note_now(struct choosing_run *run, const struct model_window *window)
{
    size_t ahead = window->slots[0].time - run->model.now;
    bool inside = ahead + window->count > 2250;
    run->occurred[NOW_FIRST_OF_WINDOW] += ahead == 2250;
    run->occurred[NOW_INSIDE_WINDOW] += inside && ahead < 2250;
    run->occurred[NOW_OWN_IN_WINDOW] += inside && lent_holder(&run->before, 0) == HOLDER_OWN;
}

void note_window(struct choosing_run *run, uint32_t number, const struct model_window *window)
{
    unsigned long *occurred = run->occurred;
    size_t first = window->slots[0].time % 20250, last = window->slots[window->count - 1].time % 20250;
    occurred[FEW_FREE] += is_reuse(window) && window->free > 0;
    occurred[NONE_FREE] += is_reuse(window) && window->free == 0;
    occurred[FEW_CANDIDATES] += window->candidates > 0 && window->candidates < 4;
    occurred[TIE_AT_THE_FOURTH] += window->tie_at_the_end;
    occurred[HELD_OFF] += window->only_held_off;
    occurred[HELD_OFF_NO_CANDIDATE] += window->only_held_off && number == 33;
    occurred[BARRED_BY_EARLIER] += window->earlier_bars;
    occurred[WINDOW_ROUND_THE_END] += last < first;
    note_now(run, window);
}

/* The stations that are held off as long as can be were held off just now. */
static size_t just_held_off(const struct choosing_run *run)
{
    size_t stations = 0;
    for (size_t i = 0; i < SECOND_RECORDS; i++) {
        stations += run->lent.records[i].hold_off == 2250 && run->before.records[i].hold_off < 2250;
    }
    return stations;
}

void note_chosen(struct choosing_run *run, uint32_t time_out, const struct chosen *chosen)
{
    size_t last = run->lent.book.now + chosen->distance + 2250 * time_out;
    bool round = last >= 20250 && run->lent.book.now + chosen->distance < 20250;
    uint32_t counted = chosen->candidates < COUNTED_CANDIDATES ? chosen->candidates : COUNTED_CANDIDATES - 1;
    run->candidates[counted]++;
    run->chosen_time_outs[time_out]++;
    run->occurred[MARKS_ROUND_THE_END] += round;
    run->occurred[REUSE] += chosen->replaced > 0;
    run->occurred[REUSE_OF_SEVERAL] += just_held_off(run) > 1;
}

void note_reported(struct choosing_run *run, const struct reported *reported)
{
    run->reported_time_outs[reported->time_out]++;
    run->occurred[OFFSET_FOUND] += reported->time_out == 0 && reported->offset > 0;
    run->occurred[OFFSET_NOT_FOUND] += reported->time_out == 0 && reported->offset == 0;
}
