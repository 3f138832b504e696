/* book_calls.c - makes random calls to a slot book and checks after each one what has to hold. */
#include "book_calls.h"

#include <string.h>

/* A part of the slots is counted again only where it differs: 81 parts make a book. */
enum { PART = 250, BYTES = 30 };

/* ---- what has to hold after each call ---- */

/* The slots are counted from what they were before the call, so the count is that of the slots, not of the calls. */
static void recount(struct book_run *run)
{
    const uint16_t *old = run->before.slots, *new = run->lent.slots;
    for (size_t from = 0; from < SECOND_SLOTS; from += PART) {
        if (memcmp(old + from, new + from, PART * sizeof old[0]) == 0) {
            continue;
        }
        for (size_t place = from; place < from + PART; place++) {
            run->counts[old[place]]--;
            run->counts[new[place]]++;
        }
    }
}

static void check_counts(struct book_run *run)
{
    const struct channel *channel = &run->lent.book.channel;
    unsigned long total = (unsigned long)channel->free + channel->own;
    bool equal = channel->free == run->counts[HOLDER_NONE] && channel->own == run->counts[HOLDER_OWN];
    for (size_t i = 0; i < SECOND_RECORDS; i++) {
        total += run->lent.records[i].tally;
        equal = equal && run->lent.records[i].tally == run->counts[i + 1];
    }
    check_that(&run->counted, equal, "a tally or the free count is not the count of the slots");
    check_that(&run->counted, total == SECOND_SLOTS, "the sum is not 20,250");
}

static void check_after(struct book_run *run)
{
    recount(run);
    check_counts(run);
    check_that(&run->briefly, model_agrees_briefly(&run->model, &run->lent), "now, plan or ship");
}

void book_run_compare(struct book_run *run)
{
    check_that(&run->in_full, model_agrees(&run->model, &run->lent), "a holder or a record");
}

static void check_call(struct book_run *run, enum book_call call, uint32_t number, uint32_t expected)
{
    run->calls++;
    run->numbers[call][number < NUMBERS_END ? number : DONE]++;
    check_that(&run->numbered, number == expected, "another number than the model's");
    if (number != DONE) {
        check_that(&run->unchanged, lent_same(&run->before, &run->lent), "a refusal changed something");
    }
    check_after(run);
}

static void check_answer(struct book_run *run, const struct heard *heard, const struct heard *expected)
{
    check_that(&run->numbered, heard_same(heard, expected), "another source, MARKS or record than the model's");
}

/* ---- the calls ---- */

/* Seldom the lists have another length during a call; returns whether they do. */
static bool lend_lists(struct book_run *run)
{
    bool wrong = seldom(run);
    run->lent.book.slot_count = SECOND_SLOTS;
    run->lent.book.record_count = SECOND_RECORDS;
    if (wrong && random_coin(&run->random)) {
        run->lent.book.slot_count += random_coin(&run->random) ? 1 : (size_t)-1;
    } else if (wrong) {
        run->lent.book.record_count += random_coin(&run->random) ? 1 : (size_t)-1;
    }
    run->before = run->lent;
    return wrong;
}

static void note_heard(struct book_run *run, uint32_t id, const struct announcement *said)
{
    run->ids[id]++;
    if (id == ID_INCREMENTAL) {
        run->slots_codes[said->slots_code]++;
        run->keeps[said->keep]++;
    } else {
        run->time_outs[said->time_out]++;
    }
}

static void call_hear(struct book_run *run)
{
    uint8_t message[BYTES] = {0};
    uint16_t station = random_station(run);
    uint32_t id = seldom(run) ? from_to(run, 0, 63) : from_to(run, 1, 4);
    size_t len = seldom(run) ? from_to(run, 0, BYTES) : SECOND_MESSAGE_BYTES;
    struct announcement said = random_announcement(run, id == 3 ? INCREMENTAL : SELF_ORGANISED);
    struct spoken spoken = random_spoken(run, station, id == 4, said);
    struct heard heard = heard_nothing, expected_heard = heard_nothing;
    bool wrong_lists = lend_lists(run);
    uint32_t expected = len != 21 ? 17 : id < 1 || id > 4 ? 18 : wrong_lists ? 20 : 0;
    expected = expected != 0 ? expected : model_hear(&run->model, station, &spoken, &expected_heard);
    speak(id, &spoken, message);
    uint32_t number = second_hear(&run->lent.book, message, len, &heard);
    check_call(run, CALL_HEAR, number, expected);
    check_answer(run, &heard, &expected_heard);
    if (number == DONE && expected == DONE) {
        note_heard(run, id, &said);
    }
}

static void call_hear_spoken(struct book_run *run)
{
    uint16_t station = random_station(run);
    bool base = random_coin(&run->random);
    struct spoken spoken = random_spoken(run, station, base, any_announcement(run));
    struct heard heard = heard_nothing, expected_heard = heard_nothing;
    uint32_t expected = lend_lists(run) ? 20 : model_hear(&run->model, station, &spoken, &expected_heard);
    check_call(run, CALL_HEAR_SPOKEN, second_hear_spoken(&run->lent.book, &spoken, &heard), expected);
    check_answer(run, &heard, &expected_heard);
}

/* For a record that has a station; there is none before the first hearing. */
static void call_mark(struct book_run *run)
{
    struct announcement said = any_announcement(run);
    uint16_t record = (uint16_t)from_to(run, 1, run->traffic->stations < 255 ? run->traffic->stations : 255);
    uint32_t marks = 0, expected_marks = 0;
    if (run->model.records[record - 1].station == 0) {
        return;
    }
    uint32_t expected = lend_lists(run) ? 20 : model_mark(&run->model, record, &said, &expected_marks);
    check_call(run, CALL_MARK, second_mark(&run->lent.book, record, &said, &marks), expected);
    check_that(&run->numbered, marks == expected_marks, "other MARKS than the model's");
}

static uint32_t random_passes(struct book_run *run)
{
    uint32_t passes = from_to(run, 0, run->traffic->passes_max);
    if (run->traffic->long_passes) {
        const uint32_t long_passes[] = {2250, 2250, 4500, 20249, 20250, 20251, 65535, passes};
        passes = long_passes[random_below(&run->random, 8)];
    } else if (!run->traffic->crowded && random_below(&run->random, 8) == 0) {
        passes = SECOND_FRAME;
    }
    size_t left = model_passes_left(&run->model);
    return passes < left ? passes : (uint32_t)left;
}

static void call_pass(struct book_run *run)
{
    uint32_t passes = random_passes(run);
    bool wrong_lists = lend_lists(run);
    model_pass(&run->model, wrong_lists ? 0 : passes);
    check_call(run, CALL_PASS, second_pass(&run->lent.book, passes), wrong_lists ? 20 : 0);
}

static void call_plan(struct book_run *run)
{
    uint32_t rate = from_to(run, 0, 31), start = seldom(run) ? from_to(run, 2249, 2251) : from_to(run, 0, 2249);
    uint32_t expected = lend_lists(run) ? 20 : model_plan(&run->model, rate, start);
    check_call(run, CALL_PLAN, second_plan(&run->lent.book, rate, start), expected);
}

/* A source of the traffic, or one that is none, or one that nobody else has. */
static void call_own(struct book_run *run)
{
    uint16_t station = random_station(run);
    uint32_t source = random_coin(&run->random) ? random_source(run, station) : 123;
    bool unknown = random_coin(&run->random);
    int32_t latitude = unknown ? 54600000 : random_number(&run->random, -55000000, 55000000);
    int32_t longitude = unknown ? 108600000 : random_number(&run->random, -109000000, 109000000);
    lend_lists(run);
    uint32_t expected = model_own(&run->model, source, latitude, longitude);
    check_call(run, CALL_OWN, second_own(&run->lent.book, source, latitude, longitude), expected);
}

/* These sequences do not choose: a slot and some frames after it are made our own as a choice would, but anywhere. Half
 * of them are near the present slot, where the stations' marks are. */
static void choose(struct book_run *run)
{
    size_t first = from_to(run, 0, random_coin(&run->random) ? 2 : 2250), frames = from_to(run, 0, 7);
    lend_lists(run);
    for (size_t ahead = first; ahead <= first + SECOND_FRAME * frames; ahead += SECOND_FRAME) {
        uint16_t holder = lent_holder(&run->lent, ahead);
        if (holder >= 1 && holder <= SECOND_RECORDS) {
            run->lent.records[holder - 1].hold_off = 2250;
        }
        lent_put(&run->lent, ahead, HOLDER_OWN);
        model_choose(&run->model, ahead);
    }
    check_after(run);
}

void book_run_new(struct book_run *run)
{
    lent_new(&run->lent);
    model_new(&run->model);
    memset(run->counts, 0, sizeof run->counts);
    run->counts[HOLDER_NONE] = SECOND_SLOTS;
}

void book_run_call(struct book_run *run)
{
    static void (*const calls[])(struct book_run *) = {
        call_hear, call_hear, call_hear, call_hear, call_hear, call_hear_spoken, call_hear_spoken, call_mark,
        call_pass, call_pass, call_pass, call_pass,
    };
    switch (random_below(&run->random, 30)) {
    case 0:
        call_plan(run);
        break;
    case 1:
        call_own(run);
        break;
    case 2:
    case 3:
        choose(run);
        break;
    default:
        calls[random_below(&run->random, sizeof calls / sizeof calls[0])](run);
        break;
    }
}
