/* log_maker.h - the making of one random event log, record by record. The second program runs each record as it is
 * made: so slots are crowded where a choice will look, and time passes to where something happens.
 * Each number is drawn in a statement of its own, so that every compiler makes the same log. */
#ifndef SECOND_LOG_MAKER_H
#define SECOND_LOG_MAKER_H

#include "journal.h"
#include "logs.h"

/* What the ship and the stations are like. */
struct log_style {
    uint32_t stations_min, stations_max;
    uint32_t rate_min, rate_max;
    uint32_t passes_max;  /* of most records */
    uint32_t far_passes;  /* in a hundred records: to an own slot, into a window, or a frame */
    uint32_t long_passes; /* in a thousand: frames, or more than the whole book */
    uint32_t choices;     /* in a hundred */
    uint32_t crowds;      /* in a hundred: stations announce blocks all over a window */
    uint32_t strange;     /* in a hundred: records that are refused, or at a limit of what is not */
    bool lasting;         /* every report marks something */
};

struct log_maker {
    struct random random;
    struct log *log;
    struct journal beside;
    const struct log_style *style;
    uint32_t stations;
    uint32_t crowded; /* the window that was crowded last */
    size_t records;
};

/* Begins a log, mostly with a plan and a ship. */
void maker_new(struct log_maker *maker, struct log *log, const struct log_style *style);

/* Adds a record, or several that crowd a window. */
void maker_add(struct log_maker *maker);

/* The records that it may be. A crowd is several: stations announce blocks all over a window, and mostly somebody
 * chooses in it at once. */
void maker_add_hear(struct log_maker *maker);
void maker_add_choice(struct log_maker *maker);
void maker_add_choice_at_once(struct log_maker *maker, uint32_t k);
void maker_add_crowd(struct log_maker *maker);

/* Adds a record that is refused, or at a limit of what is not; or bytes that are no record in order. */
void maker_add_strange(struct log_maker *maker);

/* ---- what these share ---- */

/* A number with both limits included, and so often in a hundred. */
uint32_t maker_drawn(struct log_maker *maker, uint32_t first, uint32_t last);
bool maker_chance(struct log_maker *maker, uint32_t in_hundred);

bool maker_has_plan(const struct log_maker *maker);
uint32_t maker_rate(const struct log_maker *maker);

/* The first own mark past now; where there is none, not far. */
size_t maker_to_own(struct log_maker *maker);

/* A record without passes, or with passes, which then have happened; and the end of it: its call is made, and it goes
 * into the log. */
struct log_record maker_begin_at_once(enum record_kind kind);
struct log_record maker_begin(struct log_maker *maker, enum record_kind kind);
void maker_end(struct log_maker *maker, const struct log_record *record);

/* A message with a station, a position and a state that are drawn, and with bits of any kind in all other fields. */
struct spoken maker_spoken(struct log_maker *maker);
void maker_speak(struct log_maker *maker, uint32_t id, const struct spoken *spoken, uint8_t *message);
uint32_t maker_id(struct log_maker *maker);

/* Puts random bits at these places of a message, both included. */
void maker_scatter(struct log_maker *maker, uint8_t *message, size_t first, size_t last);

uint32_t maker_source(uint32_t station);

#endif
