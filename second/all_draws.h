/* all_draws.h - windows of which every one of the 65,536 draws is tried. */
#ifndef SECOND_ALL_DRAWS_H
#define SECOND_ALL_DRAWS_H

#include "choosing_case.h"

/* Every draw of the window meant, which has a candidate and no own mark: each candidate is to be picked by equally many
 * draws, in turn, and the rest sent back. The book is left as it was. */
void check_all_draws(struct check *check, struct lent *lent, uint32_t k, uint32_t time_out);

/* Books with a number of candidates that is chosen by hand. */
void all_draws_by_hand(struct report *report);

#endif
