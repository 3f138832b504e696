/* log_records_by_hand.c - the records of an event log by hand: lengths, kinds, passes. Whether slots passed is seen by
 * how far ahead a slot is chosen: it is slot 2239, the sixth of window 0 of the plan 14 0. */
#include "log_by_hand.h"
#include "log_case.h"

#define COUNT_OF(list) (sizeof(list) / sizeof(list)[0])

#define PLAN "07 00 03 00 00 00 0E 00 00"
#define CHOOSE "08 00 02 00 00 00 00 03 05 00"
#define CHOOSE_1 "08 00 02 00 00 00 01 03 05 00"
#define ZEROS_20 "00 00 00 00 00 00 00 00 00 00 00 00 00 00 00 00 00 00 00 00"

#define SUM_NEW "sum 20250 0 0 20250\n"
#define SUM_CHOSEN "sum 20246 4 0 20250\n"
#define NONE_PASSED "plan 14 0\nown 2239 2239 33 0\n" SUM_CHOSEN

enum { KNOWN_KINDS = 4 };

static struct log here;

static void test_paper(struct report *report)
{
    struct check check = {.name = "the log of document 01 gives its four lines and no more"};
    check_hex(&check, PLAN CHOOSE CHOOSE, "plan 14 0\nown 2239 2239 33 0\nrefused 32\nsum 20246 4 0 20250\n",
              "the example");
    check_report(&check, report);
}

static void test_empty_and_short(struct report *report)
{
    struct check check = {.name = "an empty log gives the sum; one last byte gives 40"};
    check_hex(&check, "", SUM_NEW, "no byte");
    check_hex(&check, "00", "refused 40\n" SUM_NEW, "one byte 0");
    check_hex(&check, "FF", "refused 40\n" SUM_NEW, "one byte 255");
    check_hex(&check, PLAN "00", "plan 14 0\nrefused 40\n" SUM_NEW, "one byte after a record");
    check_report(&check, report);
}

static void test_short_lengths(struct report *report)
{
    struct check check = {.name = "lengths 0 and 1: 41, and no more is skipped than the length says"};
    check_hex(&check, "00 00", "refused 41\n" SUM_NEW, "length 0 alone");
    check_hex(&check, "00 00 00 00 00 00", "refused 41\nrefused 41\nrefused 41\n" SUM_NEW, "three of length 0");
    check_hex(&check, "00 00" PLAN CHOOSE, "refused 41\n" NONE_PASSED, "length 0 before a record");
    check_hex(&check, "01 00 03" PLAN CHOOSE, "refused 41\n" NONE_PASSED, "length 1 before a record");
    check_hex(&check, "01 00 03", "refused 41\n" SUM_NEW, "length 1 alone");
    check_hex(&check, "01 00", "refused 40\n" SUM_NEW, "length 1 without its byte");
    check_hex(&check, "00 00 01", "refused 41\nrefused 40\n" SUM_NEW, "length 0 and one last byte");
    check_report(&check, report);
}

static void test_cut(struct report *report)
{
    struct check check = {.name = "40 comes before 41, and a cut record makes no passes"};
    check_hex(&check, "02 00", "refused 40\n" SUM_NEW, "a length alone");
    check_hex(&check, "07 00 05 00 00 00 0E 00", "refused 40\n" SUM_NEW, "kind unknown");
    check_hex(&check, "09 00 03 00 00 00 0E 00 00", "refused 40\n" SUM_NEW, "length wrong for its kind");
    check_hex(&check, "FF FF 03 00 00 00 0E 00 00", "refused 40\n" SUM_NEW, "the greatest length");
    check_hex(&check, PLAN CHOOSE "08 00 02 00 FF FF 00 03 05",
              "plan 14 0\nown 2239 2239 33 0\nrefused 40\n" SUM_CHOSEN, "passes in a cut record");
    check_report(&check, report);
}

/* ---- skipped records ---- */

static void put_number(struct log *log, size_t number)
{
    const uint8_t bytes[] = {(uint8_t)number, (uint8_t)(number >> 8)};
    log_add(log, bytes, sizeof bytes);
}

/* The body is 258 again and again: that many slots would pass, if any did. */
static void put_strange(struct log *log, size_t length, size_t kind)
{
    put_number(log, length);
    put_number(log, kind);
    for (size_t i = 2; i < length; i++) {
        const uint8_t byte = i % 2 == 0 ? 2 : 1;
        log_add(log, &byte, 1);
    }
}

static void check_skipped(struct check *check, size_t length, size_t kind, const char *what)
{
    log_new(&here);
    put_strange(&here, length, kind);
    put_hex(&here, PLAN CHOOSE);
    check_lines(check, &here, "refused 41\n" NONE_PASSED, what);
}

static void test_wrong_lengths(struct report *report)
{
    struct check check = {.name = "a known kind with another length: 41, nothing passes, and the next record is run"};
    static const size_t right[] = {0, 25, 8, 7, 16};
    for (size_t kind = 1; kind <= KNOWN_KINDS; kind++) {
        for (size_t length = 2; length <= 300; length++) {
            if (length != right[kind]) {
                check_skipped(&check, length, kind, "a length up to 300");
            }
        }
        check_skipped(&check, 65535, kind, "the greatest length");
        check_skipped(&check, 256 * 200 + right[kind], kind, "the right low byte");
    }
    check_report(&check, report);
}

static void test_cut_longest(struct report *report)
{
    struct check check = {.name = "the longest record: 41 where it is whole, 40 where its last byte is missing"};
    log_new(&here);
    put_strange(&here, 65535, 3);
    check_lines(&check, &here, "refused 41\n" SUM_NEW, "whole");
    here.len--;
    check_lines(&check, &here, "refused 40\n" SUM_NEW, "cut");
    check_report(&check, report);
}

static void test_unknown_kinds(struct report *report)
{
    struct check check = {.name = "an unknown kind: 41, nothing passes, and the next record is run"};
    static const size_t lengths[] = {2, 7, 8, 16, 25};
    static const size_t kinds[] = {0, 5, 6, 255, 256, 257, 258, 259, 260, 512, 768, 1024, 1025, 32769, 65281, 65535};
    for (size_t i = 0; i < COUNT_OF(lengths); i++) {
        for (size_t j = 0; j < COUNT_OF(kinds); j++) {
            check_skipped(&check, lengths[i], kinds[j], "a kind");
        }
    }
    check_report(&check, report);
}

/* ---- passes ---- */

static void test_passes(struct report *report)
{
    struct check check = {.name = "slots to pass: before the call, the low byte first, up to 65,535"};
    check_hex(&check, PLAN "08 00 02 00 02 01 00 03 05 00",
              "plan 14 0\nown 1981 2239 33 0\n" SUM_CHOSEN, "258 before choosing");
    check_hex(&check, "07 00 03 00 02 01 0E 00 00" CHOOSE,
              "plan 14 0\nown 1981 2239 33 0\n" SUM_CHOSEN, "258 before a plan");
    check_hex(&check, PLAN "10 00 04 00 02 01 01 00 00 00 00 00 00 00 00 00 00 00" CHOOSE,
              "plan 14 0\nat 1 0 0\nown 1981 2239 33 0\n" SUM_CHOSEN, "258 before own");
    check_hex(&check, PLAN "08 00 02 00 FF FF 00 03 05 00",
              "plan 14 0\nown 1954 2239 33 0\n" SUM_CHOSEN, "65,535: now is slot 285");
    check_hex(&check, PLAN CHOOSE "07 00 03 00 BF 08 1F 00 00",
              "plan 14 0\nown 2239 2239 33 0\nrefused 30\nsum 20246 4 0 20250\n", "up to the own slot");
    check_hex(&check, PLAN CHOOSE "07 00 03 00 C0 08 1F 00 00",
              "plan 14 0\nown 2239 2239 33 0\nrefused 30\nsum 20247 3 0 20250\n", "past the own slot");
    check_report(&check, report);
}

/* 258 slots pass before a message is heard: the station's slots lie that much later. */
static void test_passes_before_hearing(struct report *report)
{
    struct check check = {.name = "passes come before hearing: what is heard is heard in the slot after them"};
    check_hex(&check, PLAN CHOOSE "19 00 01 00 BF 08 04 00 00 00 04 00 00 00 00 00 00 00 00 00 00 00 00 00 00 C0 00",
              "plan 14 0\nown 2239 2239 33 0\nheard 1 0\nsum 20246 4 0 20250\n", "in our own slot: no time to mark");
    check_hex(&check, PLAN CHOOSE "19 00 01 00 C0 08 04 00 00 00 04 00 00 00 00 00 00 00 00 00 00 00 00 00 00 C0 00",
              "plan 14 0\nown 2239 2239 33 0\nheard 1 3\nsum 20244 3 3 20250\n", "in the next");
    check_report(&check, report);
}

static void check_passed(struct check *check, const char *refused, const char *number, const char *what)
{
    struct text lines = {.len = 0};
    text_add(&lines, "plan 14 0\nrefused %s\nown 1981 2239 33 0\n" SUM_CHOSEN, number);
    log_new(&here);
    put_hex(&here, PLAN);
    put_hex(&here, refused);
    put_hex(&here, CHOOSE);
    check_lines(check, &here, lines.chars, what);
}

static void test_passes_of_refused(struct report *report)
{
    struct check check = {.name = "passes happen also where the call is refused"};
    check_passed(&check, "19 00 01 00 02 01 00" ZEROS_20, "18", "id 0");
    check_passed(&check, "19 00 01 00 02 01 04" ZEROS_20, "21", "source 0");
    check_passed(&check, "19 00 01 00 02 01 05 00 00 00 04 00 00 00 00 00 00 00 00 00 00 00 00 00 00 C0 00", "22",
                 "repeat 1");
    check_passed(&check, "08 00 02 00 02 01 0E 03 05 00", "30", "k 14");
    check_passed(&check, "08 00 02 00 02 01 00 02 05 00", "30", "m 2");
    check_passed(&check, "08 00 02 00 02 01 00 03 FF FF", "34", "draw 65,535");
    check_passed(&check, "07 00 03 00 02 01 00 00 00", "30", "r 0");
    check_passed(&check, "07 00 03 00 02 01 0E CA 08", "30", "s 2250");
    check_passed(&check, "10 00 04 00 02 01 00 00 00 00 00 00 00 00 00 00 00 00", "21", "own source 0");
    check_passed(&check, "10 00 04 00 02 01 01 00 00 00 FF FF FF 7F 00 00 00 00", "30", "own position out of range");
    check_hex(&check, "08 00 02 00 02 01 00 03 05 00" PLAN CHOOSE,
              "refused 31\nplan 14 0\nown 1981 2239 33 0\n" SUM_CHOSEN, "no plan");
    check_hex(&check, PLAN CHOOSE "08 00 02 00 02 01 00 03 05 00" CHOOSE_1,
              "plan 14 0\nown 2239 2239 33 0\nrefused 32\nown 2141 149 33 0\nsum 20242 8 0 20250\n", "own mark");
    check_report(&check, report);
}

void log_records_by_hand(struct report *report)
{
    test_paper(report);
    test_empty_and_short(report);
    test_short_lengths(report);
    test_cut(report);
    test_wrong_lengths(report);
    test_cut_longest(report);
    test_unknown_kinds(report);
    test_passes(report);
    test_passes_before_hearing(report);
    test_passes_of_refused(report);
}
