/* book_model.h - a slow model of the slot book, for the tests alone. It shares nothing with the book: its slot times
 * are counted from 0 and never come round, nothing is counted up or down, and each time is asked for by itself. */
#ifndef SECOND_BOOK_MODEL_H
#define SECOND_BOOK_MODEL_H

#include "book_case.h"

/* Stations are numbered from 1; 0 is nobody. The times are as many as one sequence of calls may need. */
enum { MODEL_STATIONS = 400, MODEL_OWN = 1000, MODEL_TIMES = 400000 };

struct model_record {
    uint16_t station;
    bool base;
    int32_t latitude, longitude;
    size_t held_off_until;
};

/* What has to occur at least once. */
enum occurrence {
    NEW_RECORD,
    TAKE_OVER,
    TAKE_OVER_ENDS_HOLD_OFF,
    KNOWN_WITH_TALLY_0,
    KNOWN_WITH_HOLD_OFF,
    MARK_MEETS_OWN,
    MARK_MEETS_OTHER,
    MARK_MEETS_SAME,
    MARK_ROUND_THE_END,
    MARK_LAST_TIME,
    FREED,
    OFFSET_ON_FRAME,
    OFFSET_ON_FREED,
    KEEP_INSIDE_BLOCK,
    OWN_RELEASED,
    OWN_RELEASED_AT_NOW,
    OWN_IN_REGISTER,
    OCCURRENCES
};

extern const char *const occurrence_names[OCCURRENCES];

struct model {
    uint16_t holders[MODEL_TIMES]; /* by slot time: a station, MODEL_OWN or 0 */
    size_t now;
    struct model_record records[SECOND_RECORDS];
    struct ship ship;
    struct plan plan;
    unsigned long occurred[OCCURRENCES]; /* over all sequences */
};

uint32_t model_source(uint16_t station);

void model_new(struct model *model);

/* Each gives the number that the call is to give back, as far as lists and messages are in order. A station of 0 stands
 * for a source that is none. */
uint32_t model_hear(struct model *model, uint16_t station, const struct spoken *spoken, struct heard *heard);
uint32_t model_mark(struct model *model, uint16_t record, const struct announcement *said, uint32_t *marks);
uint32_t model_plan(struct model *model, uint32_t rate, uint32_t start);
uint32_t model_own(struct model *model, uint32_t source, int32_t latitude, int32_t longitude);
void model_pass(struct model *model, uint32_t passes);

/* What choosing a slot so far ahead does: it becomes our own, and the station that had it is held off. */
void model_choose(struct model *model, size_t ahead);

/* How many passes there is time left for. */
size_t model_passes_left(const struct model *model);

/* Whether the book says the same: now, plan and ship; or the holder of every slot time and what each record stores. */
bool model_agrees_briefly(const struct model *model, const struct lent *lent);
bool model_agrees(const struct model *model, const struct lent *lent);

#endif
