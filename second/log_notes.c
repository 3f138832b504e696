/* log_notes.c - notes what occurs in event logs. */
#include "log_notes.h"

#include "choosing.h"

#include <string.h>

const char *const log_occurrence_names[LOG_OCCURRENCES] = {
    [LOG_FEW_FREE] = "one to three free slots, and available ones are added",
    [LOG_NONE_FREE] = "no free slot, and available ones are added",
    [LOG_TIE_AT_THE_FOURTH] = "a tie at the fourth place",
    [LOG_HELD_OFF] = "a slot is barred by a hold-off alone",
    [LOG_HELD_OFF_NO_CANDIDATE] = "no candidate, and a slot is barred by a hold-off alone",
    [LOG_REUSE] = "a choice replaces marks",
    [LOG_REUSE_OF_SEVERAL] = "a choice replaces marks of several stations",
    [LOG_WINDOW_ROUND_THE_END] = "a window goes round the list's end",
    [LOG_CHOICE_ROUND_THE_END] = "the marks of a choice go round the list's end",
    [LOG_HEARD_ROUND_THE_END] = "a message is heard less than a frame before the list's end",
    [LOG_TAKE_OVER] = "a record is taken over from another station",
    [LOG_TAKE_OVER_ENDS_HOLD_OFF] = "a record is taken over from a station that is held off",
    [LOG_OWN_RELEASED] = "a plan releases own marks",
    [LOG_PASSES_BEFORE_REFUSAL] = "slots pass before a call that is refused",
    [LOG_PASSES_WHOLE_BOOK] = "as many slots pass as a book has, or more",
    [LOG_PASSES_ALL] = "65,535 slots pass",
    [LOG_LENGTH_0] = "a length of 0",
    [LOG_LENGTH_1] = "a length of 1",
    [LOG_UNKNOWN_KIND] = "an unknown kind",
    [LOG_WRONG_LENGTH] = "a known kind with another length",
    [LOG_LONGEST] = "a record as long as can be",
    [LOG_CUT_IN_LENGTH] = "a log ends with one last byte",
    [LOG_CUT_AFTER_LENGTH] = "a log ends between a length and its kind",
    [LOG_CUT_IN_BODY] = "a log ends inside the body of a known kind",
    [LOG_CUT_UNKNOWN_KIND] = "a log ends inside a record of an unknown kind",
};

/* ---- choosing ---- */

/* Those that are free, and of the available ones the nearest that is a candidate and the farthest that is none. */
struct seen {
    size_t free, added;
    uint32_t nearest_added, farthest_left;
    bool left;
};

static struct seen see(const struct window *window)
{
    struct seen seen = {.nearest_added = UINT32_MAX};
    for (size_t i = 0; i < window->slots; i++) {
        const struct window_slot *slot = &window->slot[i];
        seen.free += slot->state == SLOT_FREE;
        if (slot->state == SLOT_AVAILABLE && slot->candidate) {
            seen.added++;
            seen.nearest_added = slot->distance < seen.nearest_added ? slot->distance : seen.nearest_added;
        } else if (slot->state == SLOT_AVAILABLE) {
            seen.left = true;
            seen.farthest_left = slot->distance > seen.farthest_left ? slot->distance : seen.farthest_left;
        }
    }
    return seen;
}

/* The same window if nobody were held off. */
static void window_without_hold_offs(struct journal *journal, const struct log_record *record, struct window *window)
{
    static struct station kept[SECOND_RECORDS];
    memcpy(kept, journal->records, sizeof kept);
    for (size_t i = 0; i < SECOND_RECORDS; i++) {
        journal->records[i].hold_off = 0;
    }
    second_window(&journal->book, record->k, record->time_out, window);
    memcpy(journal->records, kept, sizeof kept);
}

static bool hold_off_bars(const struct window *window, const struct window *without)
{
    for (size_t i = 0; i < window->slots; i++) {
        if (window->slot[i].state == SLOT_BARRED && without->slot[i].state == SLOT_AVAILABLE) {
            return true;
        }
    }
    return false;
}

static bool looks_at_window(const struct journal *journal, const struct log_record *record)
{
    size_t distance;
    const struct book *book = &journal->book;
    struct plan plan = book->channel.plan;
    return second_is_plan(plan.rate, plan.start) && record->k < plan.rate && record->time_out >= SECOND_TIME_OUT_MIN
        && record->time_out <= SECOND_TIME_OUT_MAX
        && !second_first_own(book, second_window_meant(book, record->k), second_window_slots(plan), &distance);
}

static void note_window(struct log_notes *notes, struct journal *journal, const struct log_record *record)
{
    static struct window window, without;
    second_window(&journal->book, record->k, record->time_out, &window);
    window_without_hold_offs(journal, record, &without);
    struct seen seen = see(&window);
    bool held_off = hold_off_bars(&window, &without);
    size_t first = second_place(&journal->book, window.first);
    notes->candidates_before = window.candidates;
    notes->occurred[LOG_FEW_FREE] += seen.added > 0 && seen.free > 0;
    notes->occurred[LOG_NONE_FREE] += seen.added > 0 && seen.free == 0;
    notes->occurred[LOG_TIE_AT_THE_FOURTH] += seen.added > 0 && seen.left && seen.nearest_added == seen.farthest_left;
    notes->occurred[LOG_HELD_OFF] += held_off;
    notes->occurred[LOG_HELD_OFF_NO_CANDIDATE] += held_off && window.candidates == 0;
    notes->occurred[LOG_WINDOW_ROUND_THE_END] += first + window.slots > SECOND_SLOTS;
}

static size_t at_most(size_t number, size_t most)
{
    return number < most ? number : most;
}

static size_t tallies(const struct journal *journal)
{
    size_t sum = 0;
    for (size_t i = 0; i < SECOND_RECORDS; i++) {
        sum += journal->records[i].tally;
    }
    return sum;
}

/* Whoever was held off by the choice has a greater hold-off than before. */
static void note_choice(struct log_notes *notes, const struct journal *journal, const struct log_record *record)
{
    size_t stations = 0, distance = 0;
    const struct book *book = &journal->book;
    for (size_t i = 0; i < SECOND_RECORDS; i++) {
        stations += journal->records[i].hold_off > notes->before[i].hold_off;
    }
    second_first_own(book, second_window_meant(book, record->k), second_window_slots(book->channel.plan), &distance);
    size_t first = second_place(book, distance);
    notes->occurred[LOG_REUSE] += stations > 0;
    notes->occurred[LOG_REUSE_OF_SEVERAL] += stations > 1;
    notes->candidates[at_most(notes->candidates_before, NOTED_CANDIDATES - 1)]++;
    notes->replaced[at_most(notes->records_before - tallies(journal), NOTED_REPLACED - 1)]++;
    notes->chosen_time_outs[record->time_out]++;
    notes->occurred[LOG_CHOICE_ROUND_THE_END] += first + (size_t)SECOND_FRAME * record->time_out >= SECOND_SLOTS;
}

/* ---- hearing ---- */

static void note_message(struct log_notes *notes, const struct log_record *record)
{
    int32_t fields[SECOND_FIELDS_MAX];
    uint32_t count;
    second_message_read(record->message, SECOND_MESSAGE_BYTES, fields, SECOND_FIELDS_MAX, &count);
    const int32_t *state = fields + second_state_place(fields[0]);
    notes->ids[fields[0]]++;
    if (fields[0] == ID_INCREMENTAL) {
        notes->slots_codes[state[2]]++;
    } else {
        notes->time_outs[state[1]]++;
    }
}

static void note_hearing(struct log_notes *notes, const struct journal *journal)
{
    notes->occurred[LOG_HEARD_ROUND_THE_END] += journal->book.now + SECOND_FRAME >= SECOND_SLOTS;
    for (size_t i = 0; i < SECOND_RECORDS; i++) {
        bool taken_over = notes->before[i].source != 0 && notes->before[i].source != journal->records[i].source;
        notes->occurred[LOG_TAKE_OVER] += taken_over;
        notes->occurred[LOG_TAKE_OVER_ENDS_HOLD_OFF] += taken_over && notes->before[i].hold_off > 0;
    }
}

/* ---- records ---- */

void note_before(struct log_notes *notes, struct journal *journal, const struct log_record *record)
{
    memcpy(notes->before, journal->records, sizeof notes->before);
    notes->own_before = journal->book.channel.own;
    notes->records_before = tallies(journal);
    notes->occurred[LOG_PASSES_WHOLE_BOOK] += record->passes >= SECOND_SLOTS;
    notes->occurred[LOG_PASSES_ALL] += record->passes == UINT16_MAX;
    if (record->kind == RECORD_CHOOSE && looks_at_window(journal, record)) {
        note_window(notes, journal, record);
    }
}

void note_after(struct log_notes *notes, const struct journal *journal, const struct log_record *record,
                uint32_t number)
{
    notes->numbers[record->kind][number < NUMBERS_END ? number : DONE]++;
    if (number != DONE) {
        notes->occurred[LOG_PASSES_BEFORE_REFUSAL] += record->passes > 0;
        return;
    }
    if (record->kind == RECORD_CHOOSE) {
        note_choice(notes, journal, record);
    } else if (record->kind == RECORD_HEAR) {
        note_hearing(notes, journal);
        note_message(notes, record);
    } else if (record->kind == RECORD_PLAN) {
        notes->occurred[LOG_OWN_RELEASED] += notes->own_before > 0;
    }
}

/* The kind of a record that has the bytes of one. */
static bool has_known_kind(const struct log_piece *piece)
{
    return piece->bytes[3] == 0 && piece->bytes[2] >= RECORD_HEAR && piece->bytes[2] <= RECORD_OWN;
}

void note_skipped(struct log_notes *notes, const struct log_piece *piece)
{
    notes->occurred[LOG_LENGTH_0] += piece->len == 2;
    notes->occurred[LOG_LENGTH_1] += piece->len == 3;
    notes->occurred[LOG_UNKNOWN_KIND] += piece->len >= 4 && !has_known_kind(piece);
    notes->occurred[LOG_WRONG_LENGTH] += piece->len >= 4 && has_known_kind(piece);
    notes->occurred[LOG_LONGEST] += piece->len == sizeof piece->bytes;
}

void note_cut(struct log_notes *notes, const struct log_piece *piece)
{
    notes->occurred[LOG_CUT_IN_LENGTH] += piece->len == 1;
    notes->occurred[LOG_CUT_AFTER_LENGTH] += piece->len == 2;
    notes->occurred[LOG_CUT_IN_BODY] += piece->len > 4 && has_known_kind(piece);
    notes->occurred[LOG_CUT_UNKNOWN_KIND] += piece->len >= 4 && !has_known_kind(piece);
}
