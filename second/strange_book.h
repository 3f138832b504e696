/* strange_book.h - a book full of random numbers, for the tests of choosing and report; no row of calls leads to it. */
#ifndef SECOND_STRANGE_BOOK_H
#define SECOND_STRANGE_BOOK_H

#include "choosing_case.h"

/* The book, and what a call has to leave of it: a test copies the one into the other before the call. */
extern struct lent strange, strange_expected;

uint32_t strange_below(uint32_t limit); /* a random number */
void strange_make(void);

/* Makes now own, mostly, and the same slot in some of the next frames; and slots about one frame ahead. */
void strange_make_own(void);

/* ---- what is asked of the expected book ---- */

bool strange_has_no_plan(void);
uint16_t *strange_holder(size_t ahead);

/* Whether the time so far ahead is this far from the middle of window k, by its slot number; less than 0 is before. */
bool strange_is_at(size_t ahead, uint32_t k, long from_middle);

#endif
