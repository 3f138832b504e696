/* test_message.c - the second program's own tests, without the product. Usage: test_message VECTORS_DIR */
#include "message.h"
#include "message_fields.h"
#include "message_run.h"
#include "report.h"

#include <stdio.h>

#define COUNT_OF(list) (sizeof(list) / sizeof(list)[0])

/* ---- limits, worked out by hand from the widths of the paper ---- */

struct limits {
    int32_t lowest;
    int32_t highest;
};

/* Both without the id, which is refused by another number. */
static const struct limits position_limits[] = {
    {0, 3},                  /* repeat */
    {0, 1073741823},         /* source */
    {0, 15},                 /* status */
    {-128, 127},             /* turn */
    {0, 1023},               /* speed */
    {0, 1},                  /* accuracy */
    {-134217728, 134217727}, /* longitude */
    {-67108864, 67108863},   /* latitude */
    {0, 4095},               /* course */
    {0, 511},                /* heading */
    {0, 63},                 /* second */
    {0, 3},                  /* manoeuvre */
    {0, 7},                  /* spare */
    {0, 1},                  /* RAIM */
};

static const struct limits base_station_limits[] = {
    {0, 3},                  /* repeat */
    {0, 1073741823},         /* source */
    {0, 16383},              /* year */
    {0, 15},                 /* month */
    {0, 31},                 /* day */
    {0, 31},                 /* hour */
    {0, 63},                 /* minute */
    {0, 63},                 /* second */
    {0, 1},                  /* accuracy */
    {-134217728, 134217727}, /* longitude */
    {-67108864, 67108863},   /* latitude */
    {0, 15},                 /* fix type */
    {0, 1},                  /* control */
    {0, 511},                /* spare */
    {0, 1},                  /* RAIM */
};

static const struct limits self_organised_limits[] = {
    {0, 3}, /* sync */
    {0, 7}, /* time-out */
};

static const struct limits utc_limits[] = {
    {0, 31},  /* hour */
    {0, 127}, /* minute */
    {0, 3},   /* unused */
};

static const struct limits sub_message_limits[] = {
    {0, 16383}, /* offset, slot number or stations */
};

static const struct limits incremental_limits[] = {
    {0, 3},    /* sync */
    {0, 8191}, /* increment */
    {0, 7},    /* slots code */
    {0, 1},    /* keep */
};

struct limit_test {
    unsigned long tried;
    unsigned long wrong;
};

/* The list is that of a message with zeros in all other places, which every time-out allows. */
static void try_value(struct limit_test *test, const int32_t *fields, size_t place, int32_t value, uint32_t expected)
{
    int32_t changed[SECOND_FIELDS_MAX];
    uint8_t message[SECOND_MESSAGE_BYTES];
    for (size_t i = 0; i < SECOND_FIELDS_MAX; i++) {
        changed[i] = i == place ? value : fields[i];
    }
    test->tried++;
    test->wrong += second_message_write(changed, SECOND_FIELDS_MAX, message, sizeof message) != expected;
}

/* Tries the numbers from a place on and returns the place after them. */
static size_t try_limits(struct limit_test *test, const int32_t *fields, size_t place, const struct limits *limits,
                         size_t count)
{
    for (size_t i = 0; i < count; i++) {
        try_value(test, fields, place + i, limits[i].lowest, DONE);
        try_value(test, fields, place + i, limits[i].highest, DONE);
        try_value(test, fields, place + i, limits[i].lowest - 1, REFUSAL_WIDTH);
        try_value(test, fields, place + i, limits[i].highest + 1, REFUSAL_WIDTH);
    }
    return place + count;
}

static void try_message(struct limit_test *test, int32_t id, int32_t time_out)
{
    int32_t fields[SECOND_FIELDS_MAX] = {id};
    size_t place = id == ID_BASE_STATION
        ? try_limits(test, fields, 1, base_station_limits, COUNT_OF(base_station_limits))
        : try_limits(test, fields, 1, position_limits, COUNT_OF(position_limits));
    if (id == ID_INCREMENTAL) {
        try_limits(test, fields, place, incremental_limits, COUNT_OF(incremental_limits));
        return;
    }
    fields[place + 1] = time_out;
    place = try_limits(test, fields, place, self_organised_limits, COUNT_OF(self_organised_limits));
    if (time_out == 1) {
        try_limits(test, fields, place, utc_limits, COUNT_OF(utc_limits));
    } else {
        try_limits(test, fields, place, sub_message_limits, COUNT_OF(sub_message_limits));
    }
}

static void test_limits(struct report *report)
{
    struct limit_test test = {0, 0};
    struct text line = {.len = 0};
    for (int32_t id = ID_FIRST; id < IDS_END; id++) {
        for (int32_t time_out = 0; time_out < TIME_OUTS; time_out++) {
            try_message(&test, id, time_out);
        }
    }
    text_add(&line, "limits worked out by hand, and one past them: ");
    text_add_count(&line, test.tried);
    text_add(&line, " values, ");
    text_add_count(&line, test.wrong);
    text_add(&line, " wrong");
    report_line(report, test.wrong == 0, &line);
}

int main(int argc, char **argv)
{
    struct report report = {0, 0};
    if (argc != 2) {
        fprintf(stderr, "usage: test_message VECTORS_DIR\n");
        return 2;
    }
    message_run(&report, NULL, argv[1]);
    test_limits(&report);
    return report_end(&report);
}
