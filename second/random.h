/* random.h - the random numbers of the stream of cases, and random bytes and payloads made from them.
 * They are our own, because those of the C library differ from one machine to the next. */
#ifndef SECOND_RANDOM_H
#define SECOND_RANDOM_H

#include <stdbool.h>
#include <stddef.h>
#include <stdint.h>

struct random {
    uint64_t state;
};

size_t random_below(struct random *random, size_t limit);
size_t random_from_to(struct random *random, size_t first, size_t last); /* both included */
bool random_coin(struct random *random);
uint8_t random_byte(struct random *random);
int32_t random_number(struct random *random, int64_t lowest, int64_t highest); /* both included, both of 32 bits */

void fill_random(struct random *random, uint8_t *bytes, size_t len);

/* One bit in eight is a one: seldom any stuffing. */
void fill_poor_in_ones(struct random *random, uint8_t *bytes, size_t len);

void fill_rich_in_ones(struct random *random, uint8_t *bytes, size_t len);

/* Two times out of three rich in ones, so that there is much stuffing. */
void fill_payload(struct random *random, uint8_t *payload, size_t len);

/* A payload of 1 to 21 bytes, most of them rich in ones; returns its length. */
size_t random_payload(struct random *random, uint8_t *payload);

#endif
