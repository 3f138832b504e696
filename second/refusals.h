/* refusals.h - every length about the limits, and packets made for one refusal each: 14, 15 or 16. */
#ifndef SECOND_REFUSALS_H
#define SECOND_REFUSALS_H

#include "stream.h"

void give_refusals(struct stream *stream);

#endif
