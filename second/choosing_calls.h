/* choosing_calls.h - random calls with choosing and report among them, to a slot book and to the slow model beside it;
 * after each, what has to hold. */
#ifndef SECOND_CHOOSING_CALLS_H
#define SECOND_CHOOSING_CALLS_H

#include "choosing_case.h"
#include "choosing_model.h"
#include "drawn_position.h"
#include "random.h"

enum choosing_call { CALLED_HEAR, CALLED_PASS, CALLED_PLAN, CALLED_OWN, CALLED_CHOOSE, CALLED_REPORT, CHOOSING_CALLS };

/* What the ship and the stations are like. */
struct waters {
    const char *name;
    uint32_t rate_min, rate_max;
    uint16_t stations;
    size_t calls;
    unsigned crowds; /* in a hundred calls: stations announce blocks all over a window */
};

/* What has to occur at least once. */
enum choosing_occurrence {
    FEW_FREE,
    NONE_FREE,
    FEW_CANDIDATES,
    TIE_AT_THE_FOURTH,
    HELD_OFF,
    HELD_OFF_NO_CANDIDATE,
    BARRED_BY_EARLIER,
    WINDOW_ROUND_THE_END,
    MARKS_ROUND_THE_END,
    NOW_FIRST_OF_WINDOW,
    NOW_INSIDE_WINDOW,
    NOW_OWN_IN_WINDOW,
    REUSE,
    REUSE_OF_SEVERAL,
    FREE_PICKED_AMONG_FEW,
    OFFSET_FOUND,
    OFFSET_NOT_FOUND,
    CHOOSING_OCCURRENCES
};

extern const char *const choosing_occurrence_names[CHOOSING_OCCURRENCES];

enum { COUNTED_CANDIDATES = 6, COUNTED_TIME_OUTS = 8 };

struct choosing_run {
    struct lent lent, before;
    struct model model;
    struct random random;
    const struct waters *waters;
    size_t planned_at; /* the time of the last plan: no own mark is older */
    uint32_t crowded;  /* the window that was crowded last */
    unsigned long calls;
    unsigned long numbers[CHOOSING_CALLS][NUMBERS_END];
    unsigned long occurred[CHOOSING_OCCURRENCES];
    unsigned long candidates[COUNTED_CANDIDATES]; /* of choices, by their number; the last counts all above */
    unsigned long chosen_time_outs[COUNTED_TIME_OUTS], reported_time_outs[COUNTED_TIME_OUTS];
    struct check counted, planned, unchanged, numbered, answered, windows, in_full;
};

/* Begins with a new book, and makes one call, or several that crowd a window. */
void choosing_run_new(struct choosing_run *run);
void choosing_run_call(struct choosing_run *run);

/* Holds every slot time and every record against the model, and every window of the plan. */
void choosing_run_compare(struct choosing_run *run);

/* Random numbers: once in forty times; a number with both limits included; and what the calls are made with. */
bool now_and_then(struct choosing_run *run);
uint32_t drawn(struct choosing_run *run, uint32_t first, uint32_t last);
uint16_t drawn_station(struct choosing_run *run);
uint32_t drawn_passes(struct choosing_run *run);
uint32_t drawn_window(struct choosing_run *run);
uint32_t drawn_draw(struct choosing_run *run);

/* Notes what occurs: in the window of a choice that had no own mark, by a choice, and in a report. */
void note_window(struct choosing_run *run, uint32_t number, const struct model_window *window);
void note_chosen(struct choosing_run *run, uint32_t time_out, const struct chosen *chosen);
void note_reported(struct choosing_run *run, const struct reported *reported);

#endif
