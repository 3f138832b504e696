/* model_windows.h - the windows of the slow model's plan. Those of all frames are numbered through: number n is window
 * n mod r, and the first numbers lie before time 0. */
#ifndef SECOND_MODEL_WINDOWS_H
#define SECOND_MODEL_WINDOWS_H

#include "book_model.h"

/* All the rest is for a plan that is one. */
bool model_has_plan(const struct model *model);

/* The first and the last time of a window. */
long model_first_of(const struct model *model, long number);
long model_last_of(const struct model *model, long number);

/* The window that a time lies in, or -1. */
long model_window_with(const struct model *model, long time);

/* The first one of k that is still to begin. */
long model_window_meant(const struct model *model, uint32_t k);

/* Whether every own time of the book lies in a window of the plan, at most one in each, and those of neighbouring
 * windows neither too near nor too far from each other; with it the times that passed, as far back as `from`. */
bool model_keeps_plan(const struct model *model, const struct lent *lent, size_t from);

#endif
