/* choosing_calls.c - makes random calls with choosing and report among them and checks after each what has to hold. */
#include "choosing_calls.h"

/* A block of many slots begins past 8,192 ahead, as slots codes of 5 and more say. */
enum { FAR = 8192, FAR_FRAME = 4, FEW = 5, SMALL_WINDOW = 40 };

/* ---- what has to hold after each call ---- */

static bool counts_right(const struct lent *lent)
{
    unsigned long counts[HOLDER_OWN + 1] = {0}, sum = (unsigned long)lent->book.channel.free + lent->book.channel.own;
    for (size_t place = 0; place < SECOND_SLOTS; place++) {
        if (lent->slots[place] > HOLDER_OWN) {
            return false;
        }
        counts[lent->slots[place]]++;
    }
    bool right = counts[HOLDER_NONE] == lent->book.channel.free && counts[HOLDER_OWN] == lent->book.channel.own;
    for (size_t i = 0; i < SECOND_RECORDS; i++) {
        right = right && counts[i + 1] == lent->records[i].tally;
        sum += lent->records[i].tally;
    }
    return right && sum == SECOND_SLOTS;
}

static void check_call(struct choosing_run *run, enum choosing_call call, uint32_t number, uint32_t expected)
{
    size_t frame_back = run->model.now < 2250 ? 0 : run->model.now - 2250;
    size_t from = run->planned_at > frame_back ? run->planned_at : frame_back;
    run->calls++;
    run->numbers[call][number < NUMBERS_END ? number : DONE]++;
    check_that(&run->numbered, number == expected, "another number than the model's");
    check_that(&run->counted, counts_right(&run->lent), "a tally, the free count or the sum");
    check_that(&run->planned, model_keeps_plan(&run->model, &run->lent, from), "an own mark");
    if (number != DONE || call == CALLED_REPORT) {
        check_that(&run->unchanged, lent_same(&run->before, &run->lent), "something changed");
    }
}

/* ---- windows ---- */

static bool slot_agrees(const struct window_slot *slot, const struct model_slot *in_model)
{
    return slot->state == in_model->state && slot->distance == in_model->distance
        && slot->candidate == in_model->candidate;
}

static void check_window(struct choosing_run *run, uint32_t k, uint32_t time_out, const struct model_window *expected)
{
    struct window window;
    second_window(&run->lent.book, k, time_out, &window);
    bool good = window.slots == expected->count && window.candidates == expected->candidates
        && run->model.now + window.first == expected->slots[0].time;
    for (size_t i = 0; good && i < window.slots; i++) {
        good = slot_agrees(&window.slot[i], &expected->slots[i]);
    }
    check_that(&run->windows, good, "the slots of a window");
}

void choosing_run_compare(struct choosing_run *run)
{
    static struct model_window window;
    check_that(&run->in_full, model_agrees(&run->model, &run->lent), "a holder or a record");
    if (!model_has_plan(&run->model)) {
        return;
    }
    for (uint32_t k = 0; k < run->model.plan.rate; k++) {
        uint32_t time_out = drawn(run, 3, 7);
        model_window(&run->model, k, time_out, &window);
        check_window(run, k, time_out, &window);
    }
}

/* ---- the calls ---- */

/* Now and then the lists have another length during a call; returns whether they do. */
static bool lend_lists(struct choosing_run *run)
{
    bool wrong = now_and_then(run);
    run->lent.book.slot_count = SECOND_SLOTS - (wrong ? 1 : 0);
    run->before = run->lent;
    return wrong;
}

static void hear(struct choosing_run *run, uint16_t station, struct announcement said)
{
    struct ship position = drawn_position(&run->random);
    struct spoken spoken = {.source = model_source(station), .said = said};
    struct heard heard = heard_nothing, expected_heard = heard_nothing;
    spoken.base = drawn(run, 0, 9) == 0;
    spoken.latitude = position.latitude;
    spoken.longitude = position.longitude;
    uint32_t expected = lend_lists(run) ? 20 : model_hear(&run->model, station, &spoken, &expected_heard);
    check_call(run, CALLED_HEAR, second_hear_spoken(&run->lent.book, &spoken, &heard), expected);
    check_that(&run->answered, heard_same(&heard, &expected_heard), "source, MARKS or record");
}

static void call_hear(struct choosing_run *run)
{
    struct announcement said = {.kind = SELF_ORGANISED};
    said.time_out = drawn(run, 0, 7);
    said.offset = drawn(run, 0, 2500);
    hear(run, drawn_station(run), said);
}

/* In a small window a short block in any frame of its sets, in a great one a long block in a later frame. */
static struct announcement drawn_block(struct choosing_run *run, uint32_t ahead, uint32_t slots, uint32_t slots_left)
{
    struct announcement said = {.kind = INCREMENTAL};
    bool small = slots < SMALL_WINDOW;
    uint32_t length = drawn(run, 1, small ? FEW : slots / 4);
    uint32_t frame = drawn(run, 0, FAR_FRAME);
    length = length < slots_left ? length : slots_left;
    said.increment = small ? ahead + SECOND_FRAME * frame : ahead + SECOND_FRAME * FAR_FRAME - FAR;
    said.slots_code = small ? length - 1 : length - 1 + FEW;
    return said;
}

static uint32_t block_length(struct announcement said)
{
    return said.slots_code < FEW ? said.slots_code + 1 : said.slots_code - FEW + 1;
}

/* Stations announce blocks all over a window. Half of the time some slots are left between them, and half of the time
 * one station has all blocks. */
static void crowd(struct choosing_run *run)
{
    if (!model_has_plan(&run->model)) {
        return;
    }
    uint32_t k = drawn(run, 0, run->model.plan.rate - 1u);
    bool leaves_some = random_coin(&run->random), alone = random_coin(&run->random);
    uint16_t station = drawn_station(run);
    long number = model_window_meant(&run->model, k), first = model_first_of(&run->model, number);
    uint32_t slots = (uint32_t)(model_last_of(&run->model, number) - first + 1);
    run->crowded = k;
    for (uint32_t place = 0; place < slots;) {
        uint32_t ahead = (uint32_t)(first - (long)run->model.now) + place;
        struct announcement said = drawn_block(run, ahead, slots, slots - place);
        hear(run, station, said);
        station = alone ? station : drawn_station(run);
        place += block_length(said) + (leaves_some ? drawn(run, 0, 3) / 2 : 0);
    }
}

static void call_pass(struct choosing_run *run)
{
    uint32_t passes = drawn_passes(run);
    size_t left = model_passes_left(&run->model);
    passes = passes < left ? passes : (uint32_t)left;
    bool wrong_lists = lend_lists(run);
    model_pass(&run->model, wrong_lists ? 0 : passes);
    check_call(run, CALLED_PASS, second_pass(&run->lent.book, passes), wrong_lists ? 20 : 0);
}

static void call_plan(struct choosing_run *run)
{
    uint32_t rate = now_and_then(run) ? 31 : drawn(run, run->waters->rate_min, run->waters->rate_max);
    uint32_t start = now_and_then(run) ? 2250 : drawn(run, 0, 2249);
    uint32_t expected = lend_lists(run) ? 20 : model_plan(&run->model, rate, start);
    run->planned_at = expected == 0 ? run->model.now : run->planned_at;
    check_call(run, CALLED_PLAN, second_plan(&run->lent.book, rate, start), expected);
}

static void call_own(struct choosing_run *run)
{
    struct ship ship = drawn_position(&run->random);
    uint32_t source = now_and_then(run) ? 0 : ship.source;
    lend_lists(run);
    uint32_t expected = model_own(&run->model, source, ship.latitude, ship.longitude);
    check_call(run, CALLED_OWN, second_own(&run->lent.book, source, ship.latitude, ship.longitude), expected);
}

static void call_choose(struct choosing_run *run)
{
    static struct model_window window;
    uint32_t k = drawn_window(run), draw = drawn_draw(run);
    uint32_t time_out = now_and_then(run) ? 2 + 6 * drawn(run, 0, 1) : drawn(run, 3, 7);
    struct chosen chosen = chosen_nothing, expected_chosen = chosen_nothing;
    bool wrong_lists = lend_lists(run), has_window = model_has_plan(&run->model) && k < run->model.plan.rate;
    if (has_window && time_out >= 3 && time_out <= 7) {
        model_window(&run->model, k, time_out, &window);
        check_window(run, k, time_out, &window);
    }
    uint32_t expected = wrong_lists ? 20 : model_choose_slot(&run->model, k, time_out, draw, &expected_chosen);
    uint32_t number = second_choose(&run->lent.book, k, time_out, draw, &chosen);
    check_call(run, CALLED_CHOOSE, number, expected);
    check_that(&run->answered, chosen_same(&chosen, &expected_chosen), "the numbers of an own line");
    if (number == DONE || number == 33 || number == 34) {
        note_window(run, number, &window);
    }
    if (number == DONE) {
        run->occurred[FREE_PICKED_AMONG_FEW] += chosen.replaced == 0 && window.free < chosen.candidates;
        note_chosen(run, time_out, &chosen);
    }
}

static void call_report(struct choosing_run *run)
{
    uint32_t hour = now_and_then(run) ? 24 : drawn(run, 0, 23);
    uint32_t minute = now_and_then(run) ? 60 : drawn(run, 0, 59);
    struct reported reported = reported_nothing, expected_reported = reported_nothing;
    uint32_t expected = lend_lists(run) ? 20 : model_report(&run->model, hour, minute, &expected_reported);
    uint32_t number = second_report(&run->lent.book, hour, minute, &reported);
    check_call(run, CALLED_REPORT, number, expected);
    check_that(&run->answered, reported_same(&reported, &expected_reported), "the numbers of a report");
    if (number == DONE) {
        note_reported(run, &reported);
    }
}

/* ---- sequences ---- */

/* Most sequences begin with a plan and a ship. */
void choosing_run_new(struct choosing_run *run)
{
    lent_new(&run->lent);
    model_new(&run->model);
    run->planned_at = 0;
    run->crowded = 0;
    if (drawn(run, 0, 19) > 0) {
        call_plan(run);
        call_own(run);
    }
}

void choosing_run_call(struct choosing_run *run)
{
    static void (*const calls[])(struct choosing_run *) = {
        call_choose, call_choose, call_choose, call_report, call_report, call_pass, call_pass, call_pass, call_hear,
    };
    uint32_t chance = drawn(run, 0, 99);
    if (chance < run->waters->crowds) {
        crowd(run);
        return;
    }
    if (chance >= 98) {
        (chance == 98 ? call_plan : call_own)(run);
        return;
    }
    calls[random_below(&run->random, sizeof calls / sizeof calls[0])](run);
}
