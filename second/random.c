/* random.c - makes random numbers, and random bytes rich or poor in ones. */
#include "random.h"

#include "packet.h"

#include <string.h>

/* splitmix64, as published by its authors. */
static uint64_t random_next(struct random *random)
{
    random->state += 0x9E3779B97F4A7C15u;
    uint64_t mixed = random->state;
    mixed = (mixed ^ mixed >> 30) * 0xBF58476D1CE4E5B9u;
    mixed = (mixed ^ mixed >> 27) * 0x94D049BB133111EBu;
    return mixed ^ mixed >> 31;
}

size_t random_below(struct random *random, size_t limit)
{
    return (size_t)(random_next(random) % limit);
}

size_t random_from_to(struct random *random, size_t first, size_t last)
{
    return first + random_below(random, last - first + 1);
}

bool random_coin(struct random *random)
{
    return random_below(random, 2) == 1;
}

uint8_t random_byte(struct random *random)
{
    return (uint8_t)(random_next(random) >> 56);
}

int32_t random_number(struct random *random, int64_t lowest, int64_t highest)
{
    return (int32_t)(lowest + (int64_t)random_below(random, (size_t)(highest - lowest + 1)));
}

void fill_random(struct random *random, uint8_t *bytes, size_t len)
{
    for (size_t i = 0; i < len; i++) {
        bytes[i] = random_byte(random);
    }
}

void fill_poor_in_ones(struct random *random, uint8_t *bytes, size_t len)
{
    for (size_t i = 0; i < len; i++) {
        bytes[i] = random_byte(random) & random_byte(random) & random_byte(random);
    }
}

void fill_rich_in_ones(struct random *random, uint8_t *bytes, size_t len)
{
    for (size_t i = 0; i < len; i++) {
        bytes[i] = random_byte(random) | random_byte(random);
    }
}

static void fill_ones_but_few(struct random *random, uint8_t *bytes, size_t len)
{
    memset(bytes, 0xFF, len);
    for (size_t cleared = random_below(random, 4); cleared > 0; cleared--) {
        size_t place = random_below(random, 8 * len);
        bytes[place / 8] &= (uint8_t)~(1u << place % 8);
    }
}

void fill_payload(struct random *random, uint8_t *payload, size_t len)
{
    switch (random_below(random, 3)) {
    case 0:
        fill_random(random, payload, len);
        break;
    case 1:
        fill_rich_in_ones(random, payload, len);
        break;
    default:
        fill_ones_but_few(random, payload, len);
        break;
    }
}

size_t random_payload(struct random *random, uint8_t *payload)
{
    size_t len = random_from_to(random, 1, SECOND_PAYLOAD_MAX);
    fill_payload(random, payload, len);
    return len;
}
