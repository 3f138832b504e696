/* log_maker.c - makes one random event log: random numbers, passes, plans and ships, and which record comes next. */
#include "log_maker.h"

#include "drawn_position.h"
#include "windows.h"

#define COUNT_OF(list) (sizeof(list) / sizeof(list)[0])

/* ---- random numbers ---- */

uint32_t maker_drawn(struct log_maker *maker, uint32_t first, uint32_t last)
{
    return (uint32_t)random_from_to(&maker->random, first, last);
}

bool maker_chance(struct log_maker *maker, uint32_t in_hundred)
{
    return maker_drawn(maker, 0, 99) < in_hundred;
}

uint32_t maker_source(uint32_t station)
{
    return 200000000 + 1009 * station;
}

bool maker_has_plan(const struct log_maker *maker)
{
    return maker->beside.book.channel.plan.rate != 0;
}

uint32_t maker_rate(const struct log_maker *maker)
{
    return maker->beside.book.channel.plan.rate;
}

/* ---- passes ---- */

/* The first own mark past now; where there is none, not far. */
size_t maker_to_own(struct log_maker *maker)
{
    size_t distance = maker_drawn(maker, 0, 500);
    second_first_own(&maker->beside.book, 1, SECOND_SLOTS - 1, &distance);
    return distance;
}

static size_t passes_into_window(struct log_maker *maker)
{
    if (!maker_has_plan(maker)) {
        return 0;
    }
    uint32_t k = maker_drawn(maker, 0, maker_rate(maker) - 1);
    uint32_t place = maker_drawn(maker, 0, second_window_slots(maker->beside.book.channel.plan) - 1);
    return second_window_meant(&maker->beside.book, k) + (maker_chance(maker, 30) ? 0 : place);
}

static size_t drawn_passes(struct log_maker *maker)
{
    static const uint16_t long_passes[] = {2250, 4500, 18000, 20249, 20250, 20251, 65535};
    uint32_t chance = maker_drawn(maker, 0, 999);
    if (chance < maker->style->long_passes) {
        return long_passes[random_below(&maker->random, COUNT_OF(long_passes))];
    }
    if (chance >= maker->style->long_passes + 10 * maker->style->far_passes) {
        return maker_drawn(maker, 0, maker->style->passes_max);
    }
    switch (maker_drawn(maker, 0, 3)) {
    case 0:
        return SECOND_FRAME;
    case 1:
        return passes_into_window(maker);
    default:
        return maker_to_own(maker);
    }
}

/* ---- records ---- */

struct log_record maker_begin_at_once(enum record_kind kind)
{
    return (struct log_record){.kind = kind};
}

struct log_record maker_begin(struct log_maker *maker, enum record_kind kind)
{
    struct log_record record = maker_begin_at_once(kind);
    record.passes = (uint16_t)drawn_passes(maker);
    journal_pass(&maker->beside, &record);
    return record;
}

void maker_end(struct log_maker *maker, const struct log_record *record)
{
    journal_call(&maker->beside, record);
    log_add_record(maker->log, record);
    maker->records++;
}

/* ---- plan and own ---- */

static void add_plan(struct log_maker *maker)
{
    struct log_record record = maker_begin(maker, RECORD_PLAN);
    record.rate = (uint8_t)maker_drawn(maker, maker->style->rate_min, maker->style->rate_max);
    record.start = (uint16_t)maker_drawn(maker, 0, SECOND_FRAME - 1);
    maker_end(maker, &record);
}

/* Now and then the source is that of a station, which is not heard from then on. */
static void add_own(struct log_maker *maker)
{
    struct log_record record = maker_begin(maker, RECORD_OWN);
    struct ship ship = drawn_position(&maker->random);
    uint32_t station = maker_drawn(maker, 1, maker->stations);
    record.source = maker_chance(maker, 20) ? maker_source(station) : ship.source;
    record.latitude = ship.latitude;
    record.longitude = ship.longitude;
    maker_end(maker, &record);
}

/* ---- a log ---- */

void maker_new(struct log_maker *maker, struct log *log, const struct log_style *style)
{
    maker->log = log;
    maker->style = style;
    maker->stations = maker_drawn(maker, style->stations_min, style->stations_max);
    maker->crowded = 0;
    maker->records = 0;
    journal_new(&maker->beside, lines_to_nowhere());
    if (maker_chance(maker, 90)) {
        add_plan(maker);
        add_own(maker);
    }
}

void maker_add(struct log_maker *maker)
{
    const struct log_style *style = maker->style;
    if (maker_chance(maker, style->strange)) {
        maker_add_strange(maker);
        return;
    }
    if (maker_chance(maker, style->crowds)) {
        maker_add_crowd(maker);
        return;
    }
    if (maker_chance(maker, 2)) {
        (random_coin(&maker->random) ? add_plan : add_own)(maker);
        return;
    }
    (maker_chance(maker, style->choices) ? maker_add_choice : maker_add_hear)(maker);
}
