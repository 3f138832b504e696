/* The speed of choosing at one report a frame and time-out 7, in an empty, a half-full and a full book: ours beside the
 * second program. First both have to choose the same; then they are timed in turns, and the best of each one's rounds
 * counts. Both choose on the same records and slots, which lie in memory alike; taking a choice back is in the time of both.
 *
 * Usage: bench_choosing MACHINE, where MACHINE is what the head line says about the machine, such as "native x86-64". */
#define _POSIX_C_SOURCE 199309L

#include "../second/choosing.h"
#include "testface.h"

#include <stdio.h>
#include <stdlib.h>
#include <string.h>
#include <time.h>

#ifndef FLAGS
#define FLAGS "flags not named"
#endif

enum { RATE = 1, START = 1000, TIME_OUT = 7, CHOICES = 64, ROUNDS = 15 };

enum program { OURS, SECOND, PROGRAMS };

enum fill { EMPTY, HALF, FULL, FILLS };

static const char *const fill_names[FILLS] = {"empty book", "half full", "full"};

static uint16_t slots[SECOND_SLOTS];
static struct station records[SECOND_RECORDS];
static struct book book;

/* What a choice is made on, so that each choice finds the same. */
static uint16_t kept_slots[SECOND_SLOTS];
static struct station kept_records[SECOND_RECORDS];
static struct book kept_book;

static void fill_book(enum fill fill)
{
    second_new(&book, slots, records);
    book.ship.latitude = 5;
    book.ship.longitude = 7;
    second_plan(&book, RATE, START);
    for (size_t i = 0; i < SECOND_RECORDS; i++) {
        records[i] = (struct station){.source = (uint32_t)i + 1, .latitude = (int32_t)i * 1000, .longitude = (int32_t)i * 777};
    }
    for (size_t place = 0; place < SECOND_SLOTS; place++) {
        if (fill == FULL || (fill == HALF && place % 2 == 1)) {
            second_hand_over(&book, place, (uint16_t)(1 + place * 7 % SECOND_RECORDS));
        }
    }
    memcpy(kept_slots, slots, sizeof slots);
    memcpy(kept_records, records, sizeof records);
    kept_book = book;
}

/* Takes a choice back: its marks, and what is kept of the stations. */
static void take_back(size_t distance)
{
    for (size_t frame = 0; frame <= TIME_OUT; frame++) {
        size_t place = second_place(&book, distance + SECOND_FRAME * frame);
        slots[place] = kept_slots[place];
    }
    memcpy(records, kept_records, sizeof records);
    book = kept_book;
}

/* The low byte first. */
static void put(uint8_t *bytes, uint32_t value, size_t count)
{
    for (size_t i = 0; i < count; i++) {
        bytes[i] = (uint8_t)(value >> 8 * i);
    }
}

static void put_asked(uint8_t asked[ASKED_BYTES])
{
    const uint32_t words[ASKED_WORDS] = {
        [ASKED_NOW] = (uint32_t)book.now, [ASKED_FREE] = book.channel.free, [ASKED_OWN] = book.channel.own,
        [ASKED_RATE] = RATE,              [ASKED_START] = START,            [ASKED_TIME_OUT] = TIME_OUT,
    };
    for (size_t i = 0; i < ASKED_WORDS; i++) {
        put(asked + 2 * i, words[i], 2);
    }
    put(asked + ASKED_LATITUDE, (uint32_t)book.ship.latitude, 4);
    put(asked + ASKED_LONGITUDE, (uint32_t)book.ship.longitude, 4);
}

static uint32_t ours(uint16_t draw, struct chosen *chosen)
{
    uint8_t asked[ASKED_BYTES];
    put_asked(asked);
    uint64_t answer = qs_test_choose(records, SECOND_RECORDS, slots, SECOND_SLOTS, asked, sizeof asked, draw);
    *chosen = (struct chosen){(uint32_t)(answer >> 48), answer >> 32 & 0xffff, answer >> 16 & 0xffff, answer >> 8 & 0xff};
    return answer & 0xff;
}

static uint32_t choose(enum program program, uint16_t draw, struct chosen *chosen)
{
    return program == OURS ? ours(draw, chosen) : second_choose(&book, 0, TIME_OUT, draw, chosen);
}

/* A choice and its taking back; ends the run where it is refused. */
static void choose_once(enum program program, uint16_t draw, struct chosen *chosen)
{
    if (choose(program, draw, chosen) != DONE) {
        fprintf(stderr, "bench_choosing: a choice was refused\n");
        exit(1);
    }
    take_back(chosen->distance);
}

static void check_same(void)
{
    for (uint32_t draw = 0; draw < CHOICES; draw++) {
        struct chosen here, there;
        choose_once(OURS, (uint16_t)(draw * 1000), &here);
        choose_once(SECOND, (uint16_t)(draw * 1000), &there);
        if (memcmp(&here, &there, sizeof here) != 0) {
            fprintf(stderr, "bench_choosing: draw %u is answered differently\n", (unsigned)(draw * 1000));
            exit(1);
        }
    }
}

static double now_ns(void)
{
    struct timespec now;
    clock_gettime(CLOCK_MONOTONIC, &now);
    return (double)now.tv_sec * 1e9 + (double)now.tv_nsec;
}

static double round_ns(enum program program)
{
    struct chosen chosen;
    double start = now_ns();
    for (uint32_t draw = 0; draw < CHOICES; draw++) {
        choose_once(program, (uint16_t)(draw * 1000), &chosen);
    }
    return (now_ns() - start) / CHOICES;
}

static void time_fill(enum fill fill)
{
    double best[PROGRAMS] = {0, 0};
    fill_book(fill);
    check_same();
    for (int round = 0; round < ROUNDS; round++) {
        for (int program = OURS; program < PROGRAMS; program++) {
            double took = round_ns((enum program)program);
            best[program] = round == 0 || took < best[program] ? took : best[program];
        }
    }
    printf("%-12s %12.0f %12.0f %14.2f\n", fill_names[fill], best[OURS], best[SECOND], best[OURS] / best[SECOND]);
}

int main(int argc, char **argv)
{
    printf("Choosing, one report a frame, time-out 7 (%s; C: %s); best of %d rounds of %d\n",
           argc > 1 ? argv[1] : "machine not named", FLAGS, ROUNDS, CHOICES);
    printf("%-12s %12s %12s %14s\n", "", "ours, ns", "second, ns", "ours/second");
    for (int fill = EMPTY; fill < FILLS; fill++) {
        time_fill((enum fill)fill);
    }
    return 0;
}
