/* log_maker_choosing.c - the choices of a random event log. */
#include "choosing.h"
#include "log_maker.h"

/* The window that now lies in, or the last that has passed. */
static uint32_t present_window(const struct log_maker *maker)
{
    uint32_t last = 0;
    for (uint32_t k = 1; k < maker_rate(maker); k++) {
        if (second_window_meant(&maker->beside.book, k) > second_window_meant(&maker->beside.book, last)) {
            last = k;
        }
    }
    return last;
}

/* From a window on, the first that has no own mark; the window itself where all have. */
static uint32_t window_to_choose_in(const struct log_maker *maker, uint32_t from)
{
    const struct book *book = &maker->beside.book;
    uint32_t slots = second_window_slots(book->channel.plan);
    size_t distance;
    for (uint32_t i = 0; i < maker_rate(maker); i++) {
        uint32_t k = (from + i) % maker_rate(maker);
        if (!second_first_own(book, second_window_meant(book, k), slots, &distance)) {
            return k;
        }
    }
    return from;
}

static uint32_t drawn_window(struct log_maker *maker)
{
    uint32_t chance = maker_drawn(maker, 0, 9);
    if (!maker_has_plan(maker)) {
        return chance;
    }
    uint32_t k = maker_drawn(maker, 0, maker_rate(maker) - 1);
    if (chance < 2) {
        return maker->crowded < maker_rate(maker) ? maker->crowded : k;
    }
    if (chance < 4) {
        return present_window(maker);
    }
    return chance == 4 ? k : window_to_choose_in(maker, k);
}

/* A draw that picks an available slot where there is one among the candidates. */
static uint32_t draw_of_available(struct log_maker *maker, uint32_t k, uint32_t time_out)
{
    static struct window window;
    uint32_t before = 0;
    second_window(&maker->beside.book, k, time_out, &window);
    for (size_t i = 0; i < window.slots; i++) {
        if (window.slot[i].candidate && window.slot[i].state == SLOT_AVAILABLE) {
            uint32_t rounds = SECOND_DRAWS / (uint32_t)window.candidates;
            return before + (uint32_t)window.candidates * maker_drawn(maker, 0, rounds - 1);
        }
        before += window.slot[i].candidate;
    }
    return maker_drawn(maker, 0, 65535);
}

static uint32_t drawn_draw(struct log_maker *maker, uint32_t k, uint32_t time_out)
{
    uint32_t chance = maker_drawn(maker, 0, 9);
    if (chance == 0) {
        return 65535;
    }
    return chance < 5 && maker_has_plan(maker) ? draw_of_available(maker, k, time_out) : maker_drawn(maker, 0, 65535);
}

static void finish_choice(struct log_maker *maker, struct log_record *record, uint32_t k)
{
    uint32_t time_out = maker_drawn(maker, SECOND_TIME_OUT_MIN, SECOND_TIME_OUT_MAX);
    record->k = (uint8_t)k;
    record->time_out = (uint8_t)time_out;
    record->draw = (uint16_t)drawn_draw(maker, k, time_out);
    maker_end(maker, record);
}

void maker_add_choice(struct log_maker *maker)
{
    struct log_record record = maker_begin(maker, RECORD_CHOOSE);
    finish_choice(maker, &record, drawn_window(maker));
}

void maker_add_choice_at_once(struct log_maker *maker, uint32_t k)
{
    struct log_record record = maker_begin_at_once(RECORD_CHOOSE);
    finish_choice(maker, &record, k);
}
