/* report.c - prints the lines of the test programs. */
#include "report.h"

#include <stdarg.h>
#include <stdio.h>

/* Enough for the longest packet, one byte for each bit, and for a message; longer buffers are shown as far as this. */
enum { HEX_BYTES_MAX = 300, NUMBERS_MAX = 40 };

void text_add(struct text *text, const char *format, ...)
{
    va_list values;
    size_t room = sizeof text->chars - text->len;
    va_start(values, format);
    int wanted = vsnprintf(text->chars + text->len, room, format, values);
    va_end(values);
    if (wanted > 0) {
        text->len += (size_t)wanted < room ? (size_t)wanted : room - 1;
    }
}

void text_add_count(struct text *text, unsigned long count)
{
    if (count >= 1000) {
        text_add_count(text, count / 1000);
        text_add(text, ",%03lu", count % 1000);
    } else {
        text_add(text, "%lu", count);
    }
}

void text_add_hex(struct text *text, const uint8_t *bytes, size_t len)
{
    for (size_t i = 0; i < len && i < HEX_BYTES_MAX; i++) {
        text_add(text, "%02x", bytes[i]);
    }
    if (len > HEX_BYTES_MAX) {
        text_add(text, "..");
    }
}

void text_add_numbers(struct text *text, const int32_t *numbers, size_t len)
{
    for (size_t i = 0; i < len && i < NUMBERS_MAX; i++) {
        text_add(text, i == 0 ? "%ld" : " %ld", (long)numbers[i]);
    }
    if (len > NUMBERS_MAX) {
        text_add(text, " ..");
    }
}

void report_line(struct report *report, bool good, const struct text *text)
{
    printf("%-8s%s\n", good ? "ok" : "FAILED", text->chars);
    if (good) {
        report->passed++;
    } else {
        report->failed++;
    }
}

void report_occurrence(struct report *report, const char *name, unsigned long times)
{
    struct text line = {.len = 0};
    text_add(&line, "%s: ", name);
    text_add_count(&line, times);
    report_line(report, times > 0, &line);
}

int report_end(const struct report *report)
{
    printf("%u passed, %u failed\n", report->passed, report->failed);
    return report->failed == 0 ? 0 : 1;
}

struct text *group_count(struct group_result *group, bool writing, bool good)
{
    if (writing) {
        group->written++;
    } else {
        group->read++;
    }
    if (good) {
        return NULL;
    }
    group->wrong++;
    return group->wrong == 1 ? &group->first_wrong : NULL;
}

static void describe_group(struct text *line, const char *name, const struct group_result *group)
{
    text_add(line, "%s:", name);
    if (group->written > 0) {
        text_add(line, " ");
        text_add_count(line, group->written);
        text_add(line, group->read > 0 ? " written," : " written");
    }
    if (group->read > 0) {
        text_add(line, " ");
        text_add_count(line, group->read);
        text_add(line, " read");
    }
    if (group->written + group->read == 0) {
        text_add(line, " no case");
    }
    if (group->wrong > 0) {
        text_add(line, ", ");
        text_add_count(line, group->wrong);
        text_add(line, " wrong; the first: %s", group->first_wrong.chars);
    }
}

void report_groups(struct report *report, const struct group_result *groups, const char *const *names, size_t count)
{
    for (size_t group = 0; group < count; group++) {
        const struct group_result *result = &groups[group];
        struct text line = {.len = 0};
        describe_group(&line, names[group], result);
        report_line(report, result->wrong == 0 && result->written + result->read > 0, &line);
    }
}
