/* occurrences.h - lines about what has to occur at least once. */
#ifndef SECOND_OCCURRENCES_H
#define SECOND_OCCURRENCES_H

#include "numbers.h"
#include "report.h"

/* The numbers that a call can give back. */
struct call_numbers {
    const char *name;
    unsigned numbers[8];
    size_t count;
};

/* How often each was given: every one has to be, and no other. */
void report_call_numbers(struct report *report, const struct call_numbers *expected,
                         const unsigned long times[NUMBERS_END]);

/* How often each of `first` to `end`, the end not included, came: every one has to. */
void report_each(struct report *report, const char *name, const unsigned long *times, size_t first, size_t end);

#endif
