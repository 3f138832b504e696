/* drawn_position.h - random positions of ships for choosing. */
#ifndef SECOND_DRAWN_POSITION_H
#define SECOND_DRAWN_POSITION_H

#include "book.h"
#include "random.h"

/* A source that no station has. */
#define DRAWN_OWN_SOURCE 123

/* Our own source with a random position. There are few places, so that many are as far as each other; some lie across
 * the date line, some are not known. */
struct ship drawn_position(struct random *random);

#endif
