/* report.h - what the test programs print: a line for each test, and one last line with the counts. */
#ifndef SECOND_REPORT_H
#define SECOND_REPORT_H

#include <stdbool.h>
#include <stddef.h>
#include <stdint.h>

/* Words put together piece by piece; what does not fit is cut off. */
struct text {
    char chars[6000];
    size_t len;
};

void text_add(struct text *text, const char *format, ...);
void text_add_count(struct text *text, unsigned long count); /* with a comma before every three digits */
void text_add_hex(struct text *text, const uint8_t *bytes, size_t len);
void text_add_numbers(struct text *text, const int32_t *numbers, size_t len);

struct report {
    unsigned passed;
    unsigned failed;
};

void report_line(struct report *report, bool good, const struct text *text);

/* A line about something that has to occur at least once. */
void report_occurrence(struct report *report, const char *name, unsigned long times);

/* Prints the last line and returns the exit status. */
int report_end(const struct report *report);

/* What became of the cases of one group. Of the wrong ones the first is kept in words. */
struct group_result {
    unsigned long written;
    unsigned long read;
    unsigned long wrong;
    struct text first_wrong;
};

/* Counts a case. For the first wrong one of a group it returns where the caller is to describe it, otherwise NULL. */
struct text *group_count(struct group_result *group, bool writing, bool good);

/* One line for each group. A group without a case has failed. */
void report_groups(struct report *report, const struct group_result *groups, const char *const *names, size_t count);

#endif
