/* rows.c - what a report announces, as rows of slot times, and these times one after the other.
 * Slow on purpose: each function is one sentence of the paper, so that it can be checked by eye. */
#include "rows.h"

/* The frames that a self-organised state speaks of, and the codes from which on 8,192 is added to the increment. */
enum { FRAMES = 7, CODE_FAR = 5, FAR = 8192 };

/* ---- the rows of a state ---- */

/* The states of messages 1 to 4 have no step: each of their rows comes once in a frame. */
static void add_row(struct rows *rows, enum act act, uint64_t from, uint64_t slots, uint64_t frames)
{
    const struct row row = {.act = act, .from = from, .slots = slots, .step = 0, .times = 1, .frames = frames};
    rows->list[rows->count] = row;
    rows->count++;
}

/* A time-out past 7 says no more than 7. */
static void announce_self_organised(struct rows *rows, const struct announcement *said)
{
    uint64_t marked = said->time_out < FRAMES ? said->time_out : FRAMES;
    if (marked < FRAMES) {
        add_row(rows, ACT_FREE, SECOND_FRAME * (marked + 1), 1, FRAMES - marked);
    }
    if (marked > 0) {
        add_row(rows, ACT_MARK, SECOND_FRAME, 1, marked);
    } else if (said->offset != 0) {
        add_row(rows, ACT_MARK, said->offset, 1, 1);
    }
}

static void announce_block(struct rows *rows, uint64_t increment, uint64_t code)
{
    if (code < CODE_FAR) {
        add_row(rows, ACT_MARK, increment, code + 1, 1);
    } else {
        add_row(rows, ACT_MARK, increment + FAR, code - CODE_FAR + 1, 1);
    }
}

static void announce_incremental(struct rows *rows, const struct announcement *said)
{
    if (said->keep == 1) {
        add_row(rows, ACT_MARK, SECOND_FRAME, 1, 1);
    }
    if (said->increment != 0) {
        announce_block(rows, said->increment, said->slots_code);
    }
}

void second_announce(struct rows *rows, const struct announcement *said)
{
    rows->count = 0;
    if (said->kind == SELF_ORGANISED) {
        announce_self_organised(rows, said);
    } else {
        announce_incremental(rows, said);
    }
}

/* ---- the times of the rows ---- */

static uint64_t last_of_row(const struct row *row)
{
    return row->from + row->step * (row->times - 1) + SECOND_FRAME * (row->frames - 1) + row->slots - 1;
}

bool second_lies_beyond(const struct rows *rows)
{
    for (size_t i = 0; i < rows->count; i++) {
        if (rows->list[i].act == ACT_MARK && last_of_row(&rows->list[i]) >= SECOND_SLOTS) {
            return true;
        }
    }
    return false;
}

static void go_on(struct row *row)
{
    row->time++;
    if (row->time == row->times) {
        row->time = 0;
        row->frame++;
    }
}

/* A time is the row's if for some frame and some time of the step it lies in the run of slots. The runs come in the
 * order of time, so one that ends before `earliest` need not be asked again. */
static uint64_t next_of_row(struct row *row, uint64_t earliest)
{
    while (row->frame < row->frames) {
        uint64_t first = row->from + row->step * row->time + SECOND_FRAME * row->frame;
        uint64_t ahead = first > earliest ? first : earliest;
        if (ahead < first + row->slots) {
            return ahead;
        }
        go_on(row);
    }
    return UINT64_MAX;
}

uint64_t second_next_time(struct rows *rows, enum act act, uint64_t earliest)
{
    uint64_t next = UINT64_MAX;
    for (size_t i = 0; i < rows->count; i++) {
        if (rows->list[i].act == act) {
            uint64_t ahead = next_of_row(&rows->list[i], earliest);
            next = ahead < next ? ahead : next;
        }
    }
    return next;
}
