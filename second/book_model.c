/* book_model.c - the slow model of the slot book. */
#include "book_model.h"

#include <string.h>

const char *const occurrence_names[OCCURRENCES] = {
    [NEW_RECORD] = "a record that nobody had is taken",
    [TAKE_OVER] = "a record is taken over from another station",
    [TAKE_OVER_ENDS_HOLD_OFF] = "a take-over ends a hold-off",
    [KNOWN_WITH_TALLY_0] = "a known source with tally 0 is heard",
    [KNOWN_WITH_HOLD_OFF] = "a known source that is held off is heard",
    [MARK_MEETS_OWN] = "a mark meets our own",
    [MARK_MEETS_OTHER] = "a mark replaces another station's",
    [MARK_MEETS_SAME] = "a mark meets one that the station has",
    [MARK_ROUND_THE_END] = "a mark goes round the list's end",
    [MARK_LAST_TIME] = "a mark at the last time of the book",
    [FREED] = "a slot is freed by a time-out",
    [OFFSET_ON_FRAME] = "an offset that is a multiple of 2250",
    [OFFSET_ON_FREED] = "an offset on a slot that was just freed",
    [KEEP_INSIDE_BLOCK] = "keep inside the block",
    [OWN_RELEASED] = "a plan releases an own mark",
    [OWN_RELEASED_AT_NOW] = "a plan releases the present slot",
    [OWN_IN_REGISTER] = "our own source is one of the register",
};

/* Two stations have the lowest and the highest source that there is. */
uint32_t model_source(uint16_t station)
{
    if (station <= 1) {
        return station;
    }
    return station == 2 ? 999999999 : 200000000 + 1234567 * (uint32_t)station;
}

/* Times that no sequence so far came to hold nobody already. */
void model_new(struct model *model)
{
    size_t used = model->now + SECOND_SLOTS;
    memset(model->holders, 0, used * sizeof model->holders[0]);
    memset(model->records, 0, sizeof model->records);
    model->now = 0;
    model->ship = (struct ship){0, 54600000, 108600000};
    model->plan = (struct plan){0, 0};
}

size_t model_passes_left(const struct model *model)
{
    return MODEL_TIMES - SECOND_SLOTS - model->now;
}

/* ---- what a report says of one time ahead ---- */

static bool is_frame(uint64_t ahead)
{
    return ahead % 2250 == 0 && ahead >= 1 * 2250 && ahead <= 7 * 2250;
}

static bool is_offset(const struct announcement *said, uint64_t ahead)
{
    return ahead == said->offset && said->kind == SELF_ORGANISED && said->time_out == 0 && said->offset != 0;
}

static bool is_kept(const struct announcement *said, uint64_t ahead)
{
    return ahead == 2250 && said->kind == INCREMENTAL && said->keep == 1;
}

static uint64_t last_of_block(const struct announcement *said)
{
    uint64_t first = said->increment;
    return said->slots_code <= 4 ? first + said->slots_code : first + 8192 + (said->slots_code - 5);
}

static bool is_in_block(const struct announcement *said, uint64_t ahead)
{
    uint64_t before_first = said->slots_code <= 4 ? 0 : 8192;
    return said->kind == INCREMENTAL && said->increment != 0 && ahead >= before_first + said->increment
        && ahead <= last_of_block(said);
}

static bool is_marked(const struct announcement *said, uint64_t ahead)
{
    if (said->kind == INCREMENTAL) {
        return is_kept(said, ahead) || is_in_block(said, ahead);
    }
    return is_offset(said, ahead) || (is_frame(ahead) && ahead / 2250 <= said->time_out);
}

static bool is_given_up(const struct announcement *said, uint64_t ahead)
{
    return said->kind == SELF_ORGANISED && is_frame(ahead) && !is_marked(said, ahead);
}

/* Of all times past the book one has to be asked that is marked if any is: the last. */
static bool marks_beyond(const struct announcement *said)
{
    uint64_t last = said->kind == SELF_ORGANISED ? said->offset : last_of_block(said);
    return last >= 20250 && is_marked(said, last);
}

/* ---- marks ---- */

static void note_mark(struct model *model, uint16_t station, const struct announcement *said, size_t ahead)
{
    uint16_t holder = model->holders[model->now + ahead];
    unsigned long *occurred = model->occurred;
    occurred[MARK_MEETS_OWN] += holder == MODEL_OWN;
    occurred[MARK_MEETS_SAME] += holder == station;
    occurred[MARK_MEETS_OTHER] += holder != 0 && holder != MODEL_OWN && holder != station;
    occurred[MARK_ROUND_THE_END] += model->now % 20250 + ahead >= 20250;
    occurred[MARK_LAST_TIME] += ahead == 20249;
    occurred[OFFSET_ON_FRAME] += is_offset(said, ahead) && is_frame(ahead);
    occurred[OFFSET_ON_FREED] += is_offset(said, ahead) && is_frame(ahead) && holder == station;
    occurred[KEEP_INSIDE_BLOCK] += is_kept(said, ahead) && is_in_block(said, ahead);
}

static uint32_t mark_all(struct model *model, uint16_t station, const struct announcement *said)
{
    uint32_t marks = 0;
    for (size_t ahead = 0; ahead < 20250; ahead++) {
        uint16_t *holder = &model->holders[model->now + ahead];
        if (is_marked(said, ahead)) {
            note_mark(model, station, said, ahead);
            marks += *holder != MODEL_OWN;
            *holder = *holder == MODEL_OWN ? MODEL_OWN : station;
        } else if (*holder == station && is_given_up(said, ahead)) {
            *holder = 0;
            model->occurred[FREED]++;
        }
    }
    return marks;
}

uint32_t model_mark(struct model *model, uint16_t record, const struct announcement *said, uint32_t *marks)
{
    if (marks_beyond(said)) {
        return 35;
    }
    *marks = mark_all(model, model->records[record - 1].station, said);
    return 0;
}

/* ---- records ---- */

/* Both give an index, or 255 where there is none. */
static size_t record_with(const struct model *model, uint16_t station)
{
    size_t i = 0;
    while (i < 255 && model->records[i].station != station) {
        i++;
    }
    return i;
}

static size_t record_without_slots(const struct model *model)
{
    bool holds[MODEL_OWN + 1] = {false};
    size_t i = 0;
    for (size_t ahead = 0; ahead < 20250; ahead++) {
        holds[model->holders[model->now + ahead]] = true;
    }
    while (i < 255 && model->records[i].station != 0 && holds[model->records[i].station]) {
        i++;
    }
    return i;
}

static bool holds_nothing(const struct model *model, uint16_t station)
{
    for (size_t ahead = 0; ahead < 20250; ahead++) {
        if (model->holders[model->now + ahead] == station) {
            return false;
        }
    }
    return true;
}

static void note_record(struct model *model, const struct model_record *record, uint16_t station)
{
    unsigned long *occurred = model->occurred;
    bool held_off = record->held_off_until > model->now;
    if (record->station == station) {
        occurred[KNOWN_WITH_TALLY_0] += holds_nothing(model, station);
        occurred[KNOWN_WITH_HOLD_OFF] += held_off;
        return;
    }
    occurred[NEW_RECORD] += record->station == 0;
    occurred[TAKE_OVER] += record->station != 0;
    occurred[TAKE_OVER_ENDS_HOLD_OFF] += record->station != 0 && held_off;
}

uint32_t model_hear(struct model *model, uint16_t station, const struct spoken *spoken, struct heard *heard)
{
    if (station == 0 || model_source(station) == model->ship.source) {
        return 21;
    }
    if (spoken->repeat != 0) {
        return 22;
    }
    size_t i = record_with(model, station);
    bool known = i < 255;
    i = known ? i : record_without_slots(model);
    if (i == 255) {
        return 23;
    }
    if (marks_beyond(&spoken->said)) {
        return 35;
    }
    struct model_record *record = &model->records[i];
    note_record(model, record, station);
    size_t held_off_until = known ? record->held_off_until : 0;
    *record = (struct model_record){station, spoken->base, spoken->latitude, spoken->longitude, held_off_until};
    *heard = (struct heard){model_source(station), mark_all(model, station, &spoken->said), (uint16_t)(i + 1)};
    return 0;
}

/* ---- the other calls ---- */

void model_pass(struct model *model, uint32_t passes)
{
    model->now += passes;
}

uint32_t model_plan(struct model *model, uint32_t rate, uint32_t start)
{
    if (rate == 0 || rate > 30 || start > 2249) {
        return 30;
    }
    for (size_t ahead = 0; ahead < 20250; ahead++) {
        uint16_t *holder = &model->holders[model->now + ahead];
        if (*holder == MODEL_OWN) {
            *holder = 0;
            model->occurred[OWN_RELEASED]++;
            model->occurred[OWN_RELEASED_AT_NOW] += ahead == 0;
        }
    }
    model->plan = (struct plan){(uint16_t)rate, (uint16_t)start};
    return 0;
}

static bool is_at_most(int32_t value, int64_t limit)
{
    int64_t wide = value;
    return (wide < 0 ? -wide : wide) <= limit;
}

uint32_t model_own(struct model *model, uint32_t source, int32_t latitude, int32_t longitude)
{
    bool known = is_at_most(latitude, 54000000) && is_at_most(longitude, 108000000);
    if (source == 0 || source > 999999999) {
        return 21;
    }
    if (!known && (latitude != 54600000 || longitude != 108600000)) {
        return 30;
    }
    for (size_t i = 0; i < 255; i++) {
        model->occurred[OWN_IN_REGISTER] += model_source(model->records[i].station) == source;
    }
    model->ship = (struct ship){source, latitude, longitude};
    return 0;
}

void model_choose(struct model *model, size_t ahead)
{
    uint16_t *holder = &model->holders[model->now + ahead];
    if (*holder != 0 && *holder != MODEL_OWN) {
        model->records[record_with(model, *holder)].held_off_until = model->now + 2250;
    }
    *holder = MODEL_OWN;
}
