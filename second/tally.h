/* tally.h - how often each number was given back, and whether each that there is did occur. */
#ifndef SECOND_TALLY_H
#define SECOND_TALLY_H

#include "numbers.h"
#include "report.h"

/* Indexed by the number given back. */
struct tally {
    unsigned long writing[NUMBERS_END];
    unsigned long reading[NUMBERS_END];
};

/* Whether writing, or else reading, knows a number. */
typedef bool number_known(bool writing, unsigned number);

void tally_count(struct tally *tally, bool writing, uint32_t number);

/* Prints how often each known number occurred, and reports one line: each has to. */
void tally_report(const struct tally *tally, struct report *report, number_known *known);

#endif
