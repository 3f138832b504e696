/* book_calls.h - random calls to a slot book and to the slow model beside it; after each, what has to hold. */
#ifndef SECOND_BOOK_CALLS_H
#define SECOND_BOOK_CALLS_H

#include "book_model.h"
#include "random.h"

enum { TIME_OUTS = 8, SLOTS_CODES = 8, KEEPS = 2 };

/* Hearing by bytes, a message read already, its marks alone, and the other calls. */
enum book_call { CALL_HEAR, CALL_HEAR_SPOKEN, CALL_MARK, CALL_PASS, CALL_PLAN, CALL_OWN, BOOK_CALLS };

/* What the traffic is like. */
struct traffic {
    const char *name;
    uint16_t stations;
    size_t calls_min, calls_max;
    uint32_t passes_max;
    bool far;         /* reports past the widths of a message, to the end of the book and beyond */
    bool long_passes; /* frames, and more than the whole book */
    bool crowded;     /* every report marks something, and time passes slowly: no record stays empty */
};

struct book_run {
    struct lent lent, before;
    struct model model;
    struct random random;
    const struct traffic *traffic;
    unsigned long counts[0x10000]; /* of the slots of each holder */
    unsigned long numbers[BOOK_CALLS][NUMBERS_END];
    unsigned long ids[IDS_END], time_outs[TIME_OUTS], slots_codes[SLOTS_CODES], keeps[KEEPS]; /* heard by bytes */
    unsigned long calls;
    struct check counted, unchanged, numbered, briefly, in_full;
};

/* What a station may say, mostly in order; 0 as a station stands for a source that is none. */
uint16_t random_station(struct book_run *run);
uint32_t random_source(struct book_run *run, uint16_t station);
struct announcement random_announcement(struct book_run *run, enum state_kind kind); /* fits a message */
struct announcement any_announcement(struct book_run *run); /* past the widths of a message where the traffic is far */
struct spoken random_spoken(struct book_run *run, uint16_t station, bool base, struct announcement said);

/* Once in forty times, and a number with both limits included. */
bool seldom(struct book_run *run);
uint32_t from_to(struct book_run *run, uint32_t first, uint32_t last);

/* Begins with a new book, and makes one call; now and then own marks are put into the book instead. */
void book_run_new(struct book_run *run);
void book_run_call(struct book_run *run);

/* Holds every slot time and every record against the model. */
void book_run_compare(struct book_run *run);

#endif
