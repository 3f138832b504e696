/* drawn_position.c - random positions of ships for choosing. */
#include "drawn_position.h"

/* Here each number is drawn in a statement of its own, so that every compiler draws alike. */
struct ship drawn_position(struct random *random)
{
    static const int32_t longitudes[] = {-107999900, -200, 0, 200, 107999900};
    struct ship ship = {DRAWN_OWN_SOURCE, SECOND_UNKNOWN_LATITUDE, SECOND_UNKNOWN_LONGITUDE};
    size_t kind = random_below(random, 12);
    size_t latitude = random_below(random, 4);
    size_t longitude = random_below(random, 5);
    if (kind == 0) {
        return ship;
    }
    ship.latitude = kind == 1 ? 54000001 : 100 * (int32_t)latitude;
    ship.longitude = longitudes[longitude];
    return ship;
}
