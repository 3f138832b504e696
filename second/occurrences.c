/* occurrences.c - prints what has to occur at least once in sequences of calls. */
#include "occurrences.h"

void report_call_numbers(struct report *report, const struct call_numbers *expected,
                         const unsigned long times[NUMBERS_END])
{
    struct text line = {.len = 0};
    bool good = true;
    unsigned long given = 0, all = 0;
    text_add(&line, "numbers of %s:", expected->name);
    for (size_t i = 0; i < expected->count; i++) {
        unsigned long here = times[expected->numbers[i]];
        text_add(&line, i == 0 ? " " : ", ");
        text_add_count(&line, here);
        text_add(&line, " of %u", expected->numbers[i]);
        good = good && here > 0;
        given += here;
    }
    for (unsigned number = DONE; number < NUMBERS_END; number++) {
        all += times[number];
    }
    report_line(report, good && given == all, &line);
}

void report_each(struct report *report, const char *name, const unsigned long *times, size_t first, size_t end)
{
    struct text line = {.len = 0};
    bool good = true;
    text_add(&line, "%s:", name);
    for (size_t i = first; i < end; i++) {
        text_add(&line, i == first ? " " : ", ");
        text_add_count(&line, times[i]);
        text_add(&line, " of %zu", i);
        good = good && times[i] > 0;
    }
    report_line(report, good, &line);
}
