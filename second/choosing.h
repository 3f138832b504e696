/* choosing.h - choosing of the second program: the product is compared with it.
 * It is written from the documents (document 01, "Choose" and "Choosing"), not from the product. */
#ifndef SECOND_CHOOSING_H
#define SECOND_CHOOSING_H

#include "windows.h"

#define SECOND_TIME_OUT_MIN 3
#define SECOND_TIME_OUT_MAX 7
#define SECOND_DRAWS 65536

/* The numbers of the own line. */
struct chosen {
    uint32_t distance;    /* how far ahead the slot picked is */
    uint32_t slot_number; /* its number in the frame */
    uint32_t candidates;
    uint32_t replaced; /* marks, not stations */
};

/* Returns a number of the table. A refusal changes nothing, not even the answer. */
uint32_t second_choose(struct book *book, uint32_t k, uint32_t time_out, uint32_t draw, struct chosen *chosen);

/* ---- the parts of it ---- */

/* What a window slot is, by all times of its set. Where several are true, the first. */
enum slot_state { SLOT_OWN, SLOT_OWN_EARLIER, SLOT_FREE, SLOT_AVAILABLE, SLOT_BARRED, SLOT_STATES };

struct window_slot {
    enum slot_state state;
    uint32_t distance; /* that of its nearest holder where it is available, otherwise 0 */
    bool candidate;
};

/* The window meant, its slots in time order. */
struct window {
    size_t first; /* how far ahead it begins, 1 to 2250 */
    size_t slots;
    struct window_slot slot[SECOND_WINDOW_MAX];
    size_t candidates;
};

/* For lists and a plan in order, k below the rate and a time-out up to 7. */
void second_window(const struct book *book, uint32_t k, uint32_t time_out, struct window *window);

/* Of two known positions, in 1/10000 minute. */
uint32_t second_distance(int32_t latitude, int32_t longitude, int32_t other_latitude, int32_t other_longitude);

#endif
