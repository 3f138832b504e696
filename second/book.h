/* book.h - the slot book of the second program: the product is compared with it.
 * It is written from the documents (document 01, "The slot book" and "Numbers given back"), not from the product. */
#ifndef SECOND_BOOK_H
#define SECOND_BOOK_H

#include "numbers.h"

#include <stdbool.h>
#include <stddef.h>
#include <stdint.h>

#define SECOND_SLOTS 20250
#define SECOND_RECORDS 255
#define SECOND_FRAME 2250

#define SECOND_SOURCE_MAX 999999999
#define SECOND_UNKNOWN_LATITUDE 54600000
#define SECOND_UNKNOWN_LONGITUDE 108600000

/* Who holds a slot time: nobody, one of the records 1 to 255 in order, or ourselves. A number above has no record. */
enum { HOLDER_NONE = 0, HOLDER_OWN = SECOND_RECORDS + 1 };

struct station {
    uint32_t source;
    bool base;
    int32_t latitude, longitude;
    uint16_t tally, hold_off;
};

/* There is no plan where the rate is not 1 to 30 or the start not 0 to 2249; a new one has 0 and 0. */
struct plan {
    uint16_t rate, start;
};

/* What belongs to one radio channel. */
struct channel {
    uint16_t free, own;
    struct plan plan;
};

struct ship {
    uint32_t source;
    int32_t latitude, longitude;
};

/* The slots and the records are lent. Every call takes any content, also one that no row of calls leads to. */
struct book {
    uint16_t *slots;
    size_t slot_count;
    struct station *records;
    size_t record_count;
    struct channel channel;
    struct ship ship;
    size_t now;
};

enum state_kind { SELF_ORGANISED, INCREMENTAL };

/* The state of a message, taken apart. Of each kind only its own numbers are looked at. Here they may have any value:
 * only past the widths of a message can a mark lie beyond the book. */
struct announcement {
    enum state_kind kind;
    uint32_t time_out, offset;
    uint32_t increment, slots_code, keep;
};

/* A message, as far as hearing looks at it. */
struct spoken {
    bool base;
    uint32_t repeat, source;
    int32_t latitude, longitude;
    struct announcement said;
};

struct heard {
    uint32_t source;
    uint32_t marks; /* the different slot times that the report marked as the station's */
    uint16_t record;
};

/* A new book, register, plan and ship; the lists hold what a book needs. */
void second_new(struct book *book, uint16_t slots[SECOND_SLOTS], struct station records[SECOND_RECORDS]);

/* The calls. Each returns a number of the table, and a refusal changes nothing, not even the answer. */
uint32_t second_hear(struct book *book, const uint8_t *message, size_t message_len, struct heard *heard);
uint32_t second_pass(struct book *book, uint32_t passes); /* so many passes, one after the other */
uint32_t second_plan(struct book *book, uint32_t rate, uint32_t start);
uint32_t second_own(struct book *book, uint32_t source, int32_t latitude, int32_t longitude);

/* Hearing in its parts: a message that is read already, and the marks alone, for a record of number 1 to 255. */
uint32_t second_hear_spoken(struct book *book, const struct spoken *spoken, struct heard *heard);
uint32_t second_mark(struct book *book, uint16_t record, const struct announcement *said, uint32_t *marks);

/* ---- what the calls share ---- */

bool second_lengths_fit(const struct book *book);
bool second_is_source(uint32_t source);
bool second_is_known(int32_t latitude, int32_t longitude);
bool second_is_plan(uint32_t rate, uint32_t start);

/* The place in the list of the slot time so far ahead of now, 0 to 20,249. */
size_t second_place(const struct book *book, size_t ahead);

/* Gives a place of the list to a holder: one less in the old holder's count, then one more in the new one's. */
void second_hand_over(struct book *book, size_t place, uint16_t holder);

#endif
