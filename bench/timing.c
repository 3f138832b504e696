/* Holds the programs of a comparison against each other, times them and prints the table.
 * Compile with -DFLAGS naming the flags that all C was compiled with. */
#define _POSIX_C_SOURCE 199309L

#include "timing.h"

#include <stdio.h>
#include <stdlib.h>
#include <string.h>
#include <time.h>

#ifndef FLAGS
#define FLAGS "flags not named"
#endif

enum { ROUNDS = 15 };

/* By xorshift. */
uint32_t next_number(void)
{
    static uint64_t state = 0x9E3779B97F4A7C15u;

    state ^= state << 13;
    state ^= state >> 7;
    state ^= state << 17;
    return (uint32_t)(state >> 32);
}

void all_answer(const struct contest *contest, int call, const void *in, size_t in_len, struct answer *plain)
{
    for (int turn = 0; turn < CANDIDATES; turn++) {
        int who = (PLAIN + turn) % CANDIDATES;
        struct answer got = {0};

        memset(&got.lent, 0xA5, sizeof got.lent);
        contest->answer(who, call, in, in_len, &got);
        if (who == PLAIN)
            *plain = got;
        if (got.number != plain->number || got.count != plain->count ||
            memcmp(&got.lent, &plain->lent, sizeof got.lent) != 0) {
            fprintf(stderr, "%s: %s: %s answers %u, %s answers %u, or what they were lent differs\n",
                    contest->program, contest->calls[call], contest->names[who], (unsigned)got.number,
                    contest->names[PLAIN], (unsigned)plain->number);
            exit(1);
        }
    }
}

void give_up(const struct contest *contest, unsigned input, const char *what)
{
    fprintf(stderr, "%s: input %u %s\n", contest->program, input, what);
    exit(1);
}

static double now_ns(void)
{
    struct timespec now;

    clock_gettime(CLOCK_MONOTONIC, &now);
    return (double)now.tv_sec * 1e9 + (double)now.tv_nsec;
}

/* The nanoseconds that one program takes to go through all the inputs so many times. */
static double time_passes(const struct contest *contest, int who, int call, unsigned passes)
{
    uint32_t refused = 0;
    double start = now_ns(), taken;

    for (unsigned pass = 0; pass < passes; pass++)
        refused |= contest->pass(who, call);
    taken = now_ns() - start;
    if (refused) {
        fprintf(stderr, "%s: %s refuses in %s\n", contest->program, contest->names[who], contest->calls[call]);
        exit(1);
    }
    return taken;
}

static void print_table(const struct contest *contest, const char *machine, double best[CALLS][CANDIDATES])
{
    printf("%s, nanoseconds each: %s, all C compiled by the same cc with %s\n", contest->title,
           machine ? machine : "machine not named", FLAGS);
    printf("%d %s, best of %d rounds; all programs gave the same answers\n\n", INPUTS, contest->inputs, ROUNDS);
    printf("%-14s", "");
    for (int who = 0; who < CANDIDATES; who++)
        printf("%10s", contest->names[who]);
    printf("%13s%13s\n", "ours/plain", contest->fast_ratio);
    for (int call = WRITE; call <= READ; call++) {
        printf("%-14s", contest->calls[call]);
        for (int who = 0; who < CANDIDATES; who++)
            printf("%10.1f", best[call][who]);
        printf("%13.2f%13.2f\n", best[call][OURS] / best[call][PLAIN], best[call][OURS] / best[call][FAST]);
    }
}

void run_contest(const struct contest *contest, const char *machine)
{
    double best[CALLS][CANDIDATES], turn = 0;
    unsigned passes;

    /* A tenth of a second for each turn of all programs, whether the machine is fast or an emulator. */
    for (int who = 0; who < CANDIDATES; who++)
        turn += time_passes(contest, who, WRITE, 1) + time_passes(contest, who, READ, 1);
    passes = 1 + (unsigned)(1e8 / turn);

    for (int round = 0; round < ROUNDS; round++) {
        for (int call = WRITE; call <= READ; call++) {
            for (int who = 0; who < CANDIDATES; who++) {
                double each = time_passes(contest, who, call, passes) / passes / INPUTS;

                if (round == 0 || each < best[call][who])
                    best[call][who] = each;
            }
        }
    }
    print_table(contest, machine, best);
}
