/* choosing_by_hand.h - cases of choosing and report that were worked out by hand, sentence by sentence of document 01,
 * and single calls on books full of random numbers. */
#ifndef SECOND_CHOOSING_BY_HAND_H
#define SECOND_CHOOSING_BY_HAND_H

#include "report.h"

/* Nominal slots and their windows. */
void windows_by_hand(struct report *report);

/* What a window slot is, which slots are candidates, and their distances. */
void window_slots_by_hand(struct report *report);
void candidates_by_hand(struct report *report);

/* The slot picked, its marks and hold-offs; each refusal at its limit and past it, and which comes first. */
void choices_by_hand(struct report *report);
void choosing_refusals_by_hand(struct report *report);

/* Report, with its refusals. */
void reports_by_hand(struct report *report);

/* Books that no row of calls leads to. */
void strange_choices_at_random(struct report *report);
void strange_reports_at_random(struct report *report);

#endif
