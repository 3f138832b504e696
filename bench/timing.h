/* What the speed comparisons of packets and of messages share: four programs, each with a call that writes and one
 * that reads. First all of them have to give the same answers; then they are timed in turns, and the best of each
 * one's rounds counts, so that neither a busy machine nor the order of the turns decides. */
#ifndef BENCH_TIMING_H
#define BENCH_TIMING_H

#include "../include/quaysickle.h"

enum {
    OURS = 0,
    PLAIN = 1,
    FAST = 2, /* the best C that we know: by tables for packets, byte-wise for messages */
    SECOND = 3,
    CANDIDATES = 4,
    WRITE = 0,
    READ = 1,
    CALLS = 2,
    INPUTS = 1024 /* many and cycled, so that no branch predictor knows them by heart */
};

/* Everything that a call answers: its number, the count, and what is lent. */
struct answer {
    uint32_t number;
    uint32_t count;
    union {
        uint8_t bytes[QS_PACKET_MAX];
        int32_t numbers[QS_PACKET_MAX / sizeof(int32_t)];
    } lent;
};

struct contest {
    const char *program;
    const char *title;
    const char *inputs; /* what there are INPUTS of */
    const char *names[CANDIDATES];
    const char *fast_ratio;
    const char *calls[CALLS];

    /* Makes one call in one program and keeps its answer. */
    void (*answer)(int who, int call, const void *in, size_t in_len, struct answer *answer);

    /* Makes a call for each of the inputs in one program. Not 0 where one of them was refused. */
    uint32_t (*pass)(int who, int call);
};

/* A fixed row of numbers, the same on every machine. */
uint32_t next_number(void);

/* Makes the call in all programs and ends the run where one of them differs from the plain one, whose answer it gives.
 * What is lent is filled beforehand, so that a byte written too many shows as well. */
void all_answer(const struct contest *contest, int call, const void *in, size_t in_len, struct answer *plain);

/* Says what is wrong with an input, and ends the run. */
_Noreturn void give_up(const struct contest *contest, unsigned input, const char *what);

/* Times all programs and prints the table. The machine is what the head line says about it; NULL where nothing. */
void run_contest(const struct contest *contest, const char *machine);

#endif
