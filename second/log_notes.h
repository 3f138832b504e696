/* log_notes.h - notes what occurs in event logs. */
#ifndef SECOND_LOG_NOTES_H
#define SECOND_LOG_NOTES_H

#include "journal.h"

/* What has to occur at least once. */
enum log_occurrence {
    LOG_FEW_FREE,
    LOG_NONE_FREE,
    LOG_TIE_AT_THE_FOURTH,
    LOG_HELD_OFF,
    LOG_HELD_OFF_NO_CANDIDATE,
    LOG_REUSE,
    LOG_REUSE_OF_SEVERAL,
    LOG_WINDOW_ROUND_THE_END,
    LOG_CHOICE_ROUND_THE_END,
    LOG_HEARD_ROUND_THE_END,
    LOG_TAKE_OVER,
    LOG_TAKE_OVER_ENDS_HOLD_OFF,
    LOG_OWN_RELEASED,
    LOG_PASSES_BEFORE_REFUSAL,
    LOG_PASSES_WHOLE_BOOK,
    LOG_PASSES_ALL,
    LOG_LENGTH_0,
    LOG_LENGTH_1,
    LOG_UNKNOWN_KIND,
    LOG_WRONG_LENGTH,
    LOG_LONGEST,
    LOG_CUT_IN_LENGTH,
    LOG_CUT_AFTER_LENGTH,
    LOG_CUT_IN_BODY,
    LOG_CUT_UNKNOWN_KIND,
    LOG_OCCURRENCES
};

extern const char *const log_occurrence_names[LOG_OCCURRENCES];

enum { NOTED_CANDIDATES = 6, NOTED_TIME_OUTS = 8, NOTED_CODES = 8, NOTED_REPLACED = 5 };

struct log_notes {
    unsigned long numbers[RECORD_KINDS_END][NUMBERS_END]; /* of the calls of each kind */
    unsigned long occurred[LOG_OCCURRENCES];
    unsigned long ids[IDS_END], time_outs[NOTED_TIME_OUTS], slots_codes[NOTED_CODES]; /* heard */
    unsigned long candidates[NOTED_CANDIDATES]; /* of choices, by their number; the last counts all above */
    unsigned long chosen_time_outs[NOTED_TIME_OUTS];
    unsigned long replaced[NOTED_REPLACED]; /* marks of choices; the last counts all above */
    struct station before[SECOND_RECORDS];  /* the records before a call */
    uint16_t own_before;
    size_t candidates_before, records_before; /* of the window meant; the tallies of all records together */
};

/* Around a call: after its passes, and after the call, with the number that it gave. */
void note_before(struct log_notes *notes, struct journal *journal, const struct log_record *record);
void note_after(struct log_notes *notes, const struct journal *journal, const struct log_record *record,
                uint32_t number);

/* A record that is skipped, and one that is cut. */
void note_skipped(struct log_notes *notes, const struct log_piece *piece);
void note_cut(struct log_notes *notes, const struct log_piece *piece);

#endif
