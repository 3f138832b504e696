/* windows.h - the plan of the second program: its nominal slots and their windows (document 01, "Plan").
 * All of it is for a plan that is in range, and for k below its rate. */
#ifndef SECOND_WINDOWS_H
#define SECOND_WINDOWS_H

#include "book.h"

/* The slots of the longest window, that of rate 1. */
#define SECOND_WINDOW_MAX 451

/* The slot number of nominal slot k, and of the first slot of its window. */
uint32_t second_nominal_slot(struct plan plan, uint32_t k);
uint32_t second_first_slot(struct plan plan, uint32_t k);

/* How many slots a window reaches to each side, and how many it has. */
uint32_t second_reach(struct plan plan);
uint32_t second_window_slots(struct plan plan);

/* How far ahead the window meant begins, 1 to 2250. */
size_t second_window_meant(const struct book *book, uint32_t k);

/* How far ahead the next coming of the window that now lies in begins; 0 where now lies in none. */
size_t second_next_coming(const struct book *book);

/* Whether one of so many slot times from `first` ahead on is our own, and the distance of the first that is; otherwise
 * the distance is left as it was. */
bool second_first_own(const struct book *book, size_t first, size_t slots, size_t *distance);

#endif
