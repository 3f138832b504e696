/* choosing_case.h - what the tests of choosing and report share: books with a plan, stations at a distance, and answers
 * that can be compared. */
#ifndef SECOND_CHOOSING_CASE_H
#define SECOND_CHOOSING_CASE_H

#include "book_case.h"
#include "choosing.h"
#include "reporting.h"

/* A new book with a plan and with our ship at 0 / 0. */
void lent_new_plan(struct lent *lent, uint32_t rate, uint32_t start, size_t now);

/* Makes a record that of a mobile so far north of 0 / 0, and not held off. Its tally stays. */
void lent_station(struct lent *lent, uint16_t record, int32_t latitude);

/* Puts a holder, 0 to 256, at so many slot times one after the other. */
void lent_put_row(struct lent *lent, size_t first, size_t slots, uint16_t holder);

/* What no choice and no report gives: it stands in an answer before the call. */
extern const struct chosen chosen_nothing;
extern const struct reported reported_nothing;

bool chosen_same(const struct chosen *one, const struct chosen *other);
bool reported_same(const struct reported *one, const struct reported *other);

/* The call is to give this number; where that is a refusal, the book and the answer are to be as they were. The copy is
 * made here. */
void check_choose(struct check *check, struct lent *lent, uint32_t k, uint32_t time_out, uint32_t draw,
                  uint32_t expected, const char *what);
void check_reporting(struct check *check, struct lent *lent, uint32_t hour, uint32_t minute, uint32_t expected,
                     const char *what);

/* The call is to succeed with these numbers. */
void check_chosen(struct check *check, struct lent *lent, uint32_t k, uint32_t time_out, uint32_t draw,
                  struct chosen expected, const char *what);
void check_reported(struct check *check, const struct lent *lent, struct reported expected, const char *what);

/* The candidates of the window meant are to be those at these places in it, in order. */
void check_candidates(struct check *check, const struct lent *lent, uint32_t k, uint32_t time_out,
                      const size_t *places, size_t count, const char *what);

#endif
