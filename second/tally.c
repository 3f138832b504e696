/* tally.c - counts the numbers given back and prints the counts. */
#include "tally.h"

#include <stdio.h>

void tally_count(struct tally *tally, bool writing, uint32_t number)
{
    if (writing) {
        tally->writing[number]++;
    } else {
        tally->reading[number]++;
    }
}

static void print_counts(const struct tally *tally, number_known *known)
{
    printf("number       writing       reading\n");
    for (unsigned number = DONE; number < NUMBERS_END; number++) {
        struct text writing = {.len = 0}, reading = {.len = 0};
        if (known(true, number) || known(false, number)) {
            text_add_count(&writing, tally->writing[number]);
            text_add_count(&reading, tally->reading[number]);
            printf("%6u  %12s  %12s\n", number, writing.chars, reading.chars);
        }
    }
}

void tally_report(const struct tally *tally, struct report *report, number_known *known)
{
    struct text line = {.len = 0};
    bool good = true;
    print_counts(tally, known);
    text_add(&line, "every number occurred, 0 included");
    for (unsigned number = DONE; number < NUMBERS_END; number++) {
        if (known(true, number) && tally->writing[number] == 0) {
            text_add(&line, ", but %u never in writing", number);
            good = false;
        }
        if (known(false, number) && tally->reading[number] == 0) {
            text_add(&line, ", but %u never in reading", number);
            good = false;
        }
    }
    report_line(report, good, &line);
}
