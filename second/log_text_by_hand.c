/* log_text_by_hand.c - event logs as text, by hand: lines of every form, and lines that cannot be understood. */
#include "log_by_hand.h"
#include "log_case.h"
#include "record_text.h"

#include <string.h>

#define COUNT_OF(list) (sizeof(list) / sizeof(list)[0])

#define ZEROS_10 "00 00 00 00 00 00 00 00 00 00"

struct hand_text {
    const char *hex, *text;
};

static const struct hand_text both_ways[] = {
    {"", ""},
    {"07 00 03 00 00 00 0E 00 00", "plan 0 14 0\n"},
    {"07 00 03 00 FF FF FF FF FF", "plan 65535 255 65535\n"},
    {"08 00 02 00 02 01 00 03 05 00", "choose 258 0 3 5\n"},
    {"08 00 02 00 00 00 FF 07 01 FF", "choose 0 255 7 65281\n"},
    {"10 00 04 00 00 00 05 00 00 00 FF FF FF FF 80 06 C8 FC", "own 0 5 -1 -54000000\n"},
    {"10 00 04 00 01 00 FF FF FF FF 00 00 00 80 FF FF FF 7F", "own 1 4294967295 -2147483648 2147483647\n"},
    {"19 00 01 00 03 00 AB" ZEROS_10 ZEROS_10, "hear 3 ab0000000000000000000000000000000000000000\n"},
    {"00 00", "raw 0000\n"},
    {"01 00 09", "raw 010009\n"},
    {"02 00 03 00", "raw 02000300\n"},
    {"07 00 05 00 00 00 0E 00 00", "raw 0700050000000e0000\n"},
    {"07 00 03 00 00 00 0E 00", "raw 0700030000000e00\n"},
    {"FF", "raw ff\n"},
    {"2B 00 09 00" ZEROS_10 ZEROS_10 ZEROS_10 ZEROS_10 "01",
     "raw 2b000900000000000000000000000000000000000000000000000000000000000000000000000000\nraw 0000000001\n"},
    {"00 00 07 00 03 00 00 00 0E 00 00 07", "raw 0000\nplan 0 14 0\nraw 07\n"},
};

static void test_both_ways(struct report *report)
{
    static struct log log, back;
    static struct written text;
    struct check check = {.name = "logs as text, and the text as a log again"};
    for (size_t i = 0; i < COUNT_OF(both_ways); i++) {
        log_new(&log);
        log_new(&back);
        put_hex(&log, both_ways[i].hex);
        put_text(&back, both_ways[i].text);
        log_as_text(&log, &text);
        check_that(&check, strcmp(text.chars, both_ways[i].text) == 0, "to text");
        check_that(&check, log_same(&log, &back), "to log");
    }
    check_report(&check, report);
}

static void test_free_forms(struct report *report)
{
    struct check check = {.name = "blanks, remarks and ends of lines as one likes"};
    static const char *const lines[] = {"plan 0 14 0", " plan\t0  14 0 \r\n", "plan 0 14 0 # fourteen", "plan 0 14 0#",
                                        "plan 00 014 -0\n", "raw 0700030000000E0000\n", "raw 0700030000000e0000"};
    static const char *const nothing[] = {"", "\n", "  \t\r\n", "#", "# plan 0 14 0\n", " #"};
    static const uint8_t plan[] = {7, 0, 3, 0, 0, 0, 14, 0, 0};
    uint8_t bytes[SECOND_LINE_BYTES];
    size_t len = 1;
    for (size_t i = 0; i < COUNT_OF(lines); i++) {
        bool good = text_to_log(lines[i], bytes, &len) && len == sizeof plan;
        check_that(&check, good && memcmp(bytes, plan, sizeof plan) == 0, lines[i]);
    }
    for (size_t i = 0; i < COUNT_OF(nothing); i++) {
        check_that(&check, text_to_log(nothing[i], bytes, &len) && len == 0, "a line that says nothing");
    }
    check_report(&check, report);
}

static void test_not_understood(struct report *report)
{
    static const char *const lines[] = {
        "plans 0 14 0", "PLAN 0 14 0", "plan", "plan 0 14", "plan 0 14 0 0", "plan 0 256 0", "plan 0 14 65536",
        "plan 65536 14 0", "plan -1 14 0", "plan 0 x 0", "plan 0 1x 0", "plan 0 - 0", "plan 0 +1 0", "plan 0 0x1 0",
        "choose 0 0 3", "choose 0 256 3 0", "choose 0 0 256 0", "choose 0 0 3 65536", "choose 0 0 3 -1",
        "choose 0 0 3 0 0 0 0 0 0", "own 0 1 0", "own 0 4294967296 0 0", "own 0 -1 0 0", "own 0 1 2147483648 0",
        "own 0 1 0 -2147483649", "own 0 1 99999999999999999999 0", "hear 0", "hear 0 00",
        "hear 0 0000000000000000000000000000000000000000", "hear 0 00000000000000000000000000000000000000000000",
        "hear 0 ag0000000000000000000000000000000000000000", "raw", "raw 0", "raw 0g", "raw 00 00", "14", "? 0",
    };
    struct check check = {.name = "lines that cannot be understood"};
    uint8_t bytes[SECOND_LINE_BYTES];
    size_t len;
    for (size_t i = 0; i < COUNT_OF(lines); i++) {
        check_that(&check, !text_to_log(lines[i], bytes, &len), lines[i]);
    }
    static char longest[2 * SECOND_LINE_ROOM] = "raw ";
    memset(longest + 4, '0', SECOND_LINE_ROOM);
    check_that(&check, !text_to_log(longest, bytes, &len), "a line too long");
    check_report(&check, report);
}

void log_text_by_hand(struct report *report)
{
    test_both_ways(report);
    test_free_forms(report);
    test_not_understood(report);
}
