/* book_case.h - what the tests of the slot book share: a book with its lists, messages for it, and counted checks. */
#ifndef SECOND_BOOK_CASE_H
#define SECOND_BOOK_CASE_H

#include "book.h"
#include "message.h"
#include "report.h"

/* Each list has one entry more than a book needs: that tells a write past the end. */
struct lent {
    uint16_t slots[SECOND_SLOTS + 1];
    struct station records[SECOND_RECORDS + 1];
    struct book book;
};

void lent_new(struct lent *lent);

/* Whether everything is the same: each slot, each record, all counts, and what lies past the lists. */
bool lent_same(const struct lent *one, const struct lent *other);
bool station_same(const struct station *one, const struct station *other);
bool ship_same(const struct ship *one, const struct ship *other);

/* Puts a holder, 0 to 256, at a time ahead of now and keeps the counts right. */
void lent_put(struct lent *lent, size_t ahead, uint16_t holder);

/* A new book with sources in all records. All but the first ones hold a slot time each, farther ahead than any message
 * can mark. */
void lent_fill_register(struct lent *lent, size_t left_empty);

uint16_t lent_holder(const struct lent *lent, size_t ahead);

/* Whether the times at which a holder stands are these and no others. */
bool lent_holds_only(const struct lent *lent, uint16_t holder, const size_t *aheads, size_t count);

/* Makes the 21 bytes of a message of this id, 0 to 63. Message 3 has the incremental state, the others the
 * self-organised one; the offset is written for every time-out, so that it can be seen not to be used. */
void speak(uint32_t id, const struct spoken *spoken, uint8_t message[SECOND_MESSAGE_BYTES]);

/* What a call to hear gave. Where it refused, the answer holds what no hearing gives. */
struct outcome {
    uint32_t number;
    struct heard heard;
};

extern const struct heard heard_nothing;

bool heard_same(const struct heard *one, const struct heard *other);
struct outcome lent_hear(struct lent *lent, uint32_t id, const struct spoken *spoken);

/* Message 1, or message 3, of a source, with nothing else in it. */
struct outcome hear_self_organised(struct lent *lent, uint32_t source, uint32_t time_out, uint32_t offset);
struct outcome hear_incremental(struct lent *lent, uint32_t source, uint32_t increment, uint32_t slots_code,
                                uint32_t keep);

/* ---- counted checks, one line for all of a name ---- */

struct check {
    const char *name;
    unsigned long tried, wrong;
    const char *first_wrong;
};

void check_that(struct check *check, bool good, const char *what);
void check_report(const struct check *check, struct report *report);

/* Hearing is to give MARKS, and the station to hold these times and no others. */
void check_heard(struct check *check, const struct lent *lent, struct outcome outcome, uint32_t marks,
                 const size_t *aheads, size_t count, const char *what);

/* The call is to give this number, and where that is a refusal everything is to be as it was before. */
void check_number(struct check *check, const struct lent *before, const struct lent *after, uint32_t number,
                  uint32_t expected, const char *what);

#endif
