/* Choosing of the product, as the crate `testface` gives it to C for this comparison alone. Slices are a pointer and a
 * length. */
#ifndef BENCH_TESTFACE_H
#define BENCH_TESTFACE_H

#include "../second/book.h"

#include <stddef.h>
#include <stdint.h>

/* A record of the product's register lies in memory as one of the second program's does. */
_Static_assert(sizeof(struct station) == 20 && offsetof(struct station, base) == 4 &&
                   offsetof(struct station, latitude) == 8 && offsetof(struct station, longitude) == 12 &&
                   offsetof(struct station, tally) == 16 && offsetof(struct station, hold_off) == 18,
               "a record lies otherwise");

/* What is asked, besides the number drawn: seven numbers in two bytes each, in this order, then our latitude and longitude
 * in four bytes each; the low byte first. */
enum { ASKED_NOW, ASKED_FREE, ASKED_OWN, ASKED_RATE, ASKED_START, ASKED_K, ASKED_TIME_OUT, ASKED_WORDS };
enum { ASKED_LATITUDE = 2 * ASKED_WORDS, ASKED_LONGITUDE = ASKED_LATITUDE + 4, ASKED_BYTES = ASKED_LONGITUDE + 4 };

/* Chooses in the register and the book, as the public call does. The answer has, from its low bits on: the number of a
 * refusal, 0 for none (8 bits); marks replaced (8); candidates, slot number and distance (16 each). */
uint64_t qs_test_choose(struct station *records, size_t records_len, uint16_t *book, size_t book_len, const uint8_t *asked,
                        size_t asked_len, uint16_t draw);

#endif
