/* rows.h - what a report announces, as rows of slot times: the product is compared with it.
 * It is written from the documents (document 01, "The slot book", and docs/DECISIONS.md, 24), not from the product. */
#ifndef SECOND_ROWS_H
#define SECOND_ROWS_H

#include "book.h"

/* No state announces more rows than these. */
#define SECOND_ROWS_MAX 2

enum act { ACT_FREE, ACT_MARK };

/* So many slots in a row from a time ahead on, again at each step, so many times, in so many frames, marked or freed.
 * All times of the step begin within one frame. A row may lie far past the book and past 32 bits. */
struct row {
    enum act act;
    uint64_t from, slots, step, times, frames;
    uint64_t frame, time; /* the run of slots to which going through the row has come */
};

struct rows {
    struct row list[SECOND_ROWS_MAX];
    size_t count;
};

/* Makes the rows of a state; each has a time at least. */
void second_announce(struct rows *rows, const struct announcement *said);

/* Whether a mark would lie beyond the book. */
bool second_lies_beyond(const struct rows *rows);

/* The first time that some row frees, or marks, from `earliest` on; UINT64_MAX where there is none. Going through the
 * rows, `earliest` never falls. */
uint64_t second_next_time(struct rows *rows, enum act act, uint64_t earliest);

#endif
