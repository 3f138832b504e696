/* log_lines_by_hand.c - the lines of an event log by hand: those of each call, each number, and the sum. The plan of
 * rate 30 and start 100 has window 0 at 93 to 107 and window 1 at 168 to 182. */
#include "log_by_hand.h"
#include "log_case.h"

#define SUM_NEW "sum 20250 0 0 20250\n"

static struct log here;

static void test_plan(struct report *report)
{
    struct check check = {.name = "lines of plans: plan R S, or 30"};
    check_text(&check, "plan 0 1 0\nplan 0 30 2249\n", "plan 1 0\nplan 30 2249\n" SUM_NEW, "in range");
    check_text(&check, "plan 0 0 0\nplan 0 31 0\nplan 0 255 0\n", "refused 30\nrefused 30\nrefused 30\n" SUM_NEW, "r");
    check_text(&check, "plan 0 14 2250\nplan 0 14 65535\n", "refused 30\nrefused 30\n" SUM_NEW, "s");
    check_text(&check, "plan 0 14 0\nchoose 0 0 3 5\nplan 0 31 0\nplan 0 14 0\n",
               "plan 14 0\nown 2239 2239 33 0\nrefused 30\nplan 14 0\n" SUM_NEW, "own marks are released");
    check_text(&check, "plan 0 14 0\nchoose 0 0 3 5\nplan 0 31 0\nchoose 0 0 3 5\n",
               "plan 14 0\nown 2239 2239 33 0\nrefused 30\nrefused 32\nsum 20246 4 0 20250\n", "a refused plan");
    check_report(&check, report);
}

static void test_own(struct report *report)
{
    struct check check = {.name = "lines of own: at SOURCE LAT LON, with signs, or 21, or 30"};
    check_hex(&check, "10 00 04 00 00 00 05 00 00 00 FF FF FF FF 80 06 C8 FC", "at 5 -1 -54000000\n" SUM_NEW, "bytes");
    check_text(&check, "own 0 1 0 0\nown 0 999999999 54000000 108000000\n",
               "at 1 0 0\nat 999999999 54000000 108000000\n" SUM_NEW, "known");
    check_text(&check, "own 0 256 -54000000 -108000000\nown 0 65536 54600000 108600000\n",
               "at 256 -54000000 -108000000\nat 65536 54600000 108600000\n" SUM_NEW, "the limits and unknown");
    check_text(&check, "own 0 0 0 0\nown 0 1000000000 0 0\nown 0 4294967295 0 0\nown 0 0 54000001 0\n",
               "refused 21\nrefused 21\nrefused 21\nrefused 21\n" SUM_NEW, "source, which comes first");
    check_text(&check, "own 0 1 54000001 0\nown 0 1 -54000001 0\nown 0 1 0 108000001\nown 0 1 0 -108000001\n",
               "refused 30\nrefused 30\nrefused 30\nrefused 30\n" SUM_NEW, "not known");
    check_text(&check, "own 0 1 54600000 0\nown 0 1 0 108600000\nown 0 1 -2147483648 2147483647\n",
               "refused 30\nrefused 30\nrefused 30\n" SUM_NEW, "half unknown, and the farthest");
    check_report(&check, report);
}

/* ---- choosing ---- */

static void test_choose(struct report *report)
{
    struct check check = {.name = "lines of choosing: own DISTANCE SLOT CANDIDATES REPLACED, or 31, 30, 32, 34"};
    check_text(&check, "choose 0 255 255 65535\n", "refused 31\n" SUM_NEW, "no plan comes first");
    check_text(&check, "plan 0 14 0\nchoose 0 14 3 0\nchoose 0 255 3 0\nchoose 0 0 2 0\nchoose 0 0 8 0\n",
               "plan 14 0\nrefused 30\nrefused 30\nrefused 30\nrefused 30\n" SUM_NEW, "k and m");
    check_text(&check, "plan 0 14 0\nchoose 0 0 7 65505\nchoose 0 0 7 65504\nchoose 0 0 7 65535\n",
               "plan 14 0\nrefused 34\nown 2266 16 33 0\nrefused 32\nsum 20242 8 0 20250\n", "draws");
    check_text(&check, "plan 0 1 0\nchoose 0 0 3 0\n", "plan 1 0\nown 2025 2025 451 0\nsum 20246 4 0 20250\n", "r 1");
    check_text(&check, "plan 0 1 225\nchoose 0 0 3 450\n", "plan 1 225\nown 2700 450 451 0\nsum 20246 4 0 20250\n",
               "now is the first slot of the window");
    check_report(&check, report);
}

/* A block of five slots three times: all of a window. */
static void put_full_window(struct log *log, uint32_t source, uint32_t first)
{
    for (uint32_t block = 0; block < 3; block++) {
        put_incremental(log, source, first + 5 * block, 4, 0);
    }
}

#define FULL_WINDOW "heard 7 5\nheard 7 5\nheard 7 5\n"

static void test_no_candidate(struct report *report)
{
    struct check check = {.name = "33: a full window, with own position unknown, and with its station held off"};
    log_new(&here);
    put_text(&here, "plan 0 30 100\n");
    put_full_window(&here, 7, 93);
    put_text(&here, "choose 0 0 3 0\n");
    check_lines(&check, &here, "plan 30 100\n" FULL_WINDOW "refused 33\nsum 20235 0 15 20250\n", "position unknown");
    put_text(&here, "own 0 9 0 0\nchoose 0 0 3 0\n");
    check_lines(&check, &here, "plan 30 100\n" FULL_WINDOW "refused 33\nat 9 0 0\nown 93 93 4 1\n"
                "sum 20232 4 14 20250\n", "the first of four as far as each other");
    put_full_window(&here, 7, 168);
    put_text(&here, "choose 0 1 3 0\n");
    check_lines(&check, &here, "plan 30 100\n" FULL_WINDOW "refused 33\nat 9 0 0\nown 93 93 4 1\n" FULL_WINDOW
                "refused 33\nsum 20217 4 29 20250\n", "held off");
    check_report(&check, report);
}

/* All slots but the first have marks of a base station; the first one is a mobile's in all four frames. */
static void test_replaced(struct report *report)
{
    struct check check = {.name = "the own line counts the marks replaced, not the stations"};
    struct text lines = {.len = 0};
    log_new(&here);
    put_text(&here, "plan 0 30 100\nown 0 9 0 0\n");
    text_add(&lines, "plan 30 100\nat 9 0 0\n");
    for (uint32_t offset = 94; offset <= 107; offset++) {
        const struct spoken spoken = {.source = 8, .said = {.kind = SELF_ORGANISED, .offset = offset}};
        put_hear(&here, 0, ID_BASE_STATION, &spoken);
        text_add(&lines, "heard 8 1\n");
    }
    for (uint32_t frame = 0; frame < 4; frame++) {
        put_incremental(&here, 10, 93 + 2250 * frame, 0, 0);
        text_add(&lines, "heard 10 1\n");
    }
    put_text(&here, "choose 0 0 3 65535\n");
    text_add(&lines, "own 93 93 1 4\nsum 20232 4 14 20250\n");
    check_lines(&check, &here, lines.chars, "four marks of one station");
    check_report(&check, report);
}

/* ---- hearing ---- */

static void test_heard(struct report *report)
{
    struct check check = {.name = "lines of hearing: heard SOURCE MARKS, each slot time once, held before or not"};
    log_new(&here);
    put_self_organised(&here, 0, 1, 7, 0);
    put_self_organised(&here, 0, 1, 3, 0);
    put_self_organised(&here, 0, 1, 0, 0);
    put_self_organised(&here, 0, 1, 0, 4500);
    check_lines(&check, &here, "heard 1 7\nheard 1 3\nheard 1 0\nheard 1 1\nsum 20249 0 1 20250\n", "self-organised");
    log_new(&here);
    put_incremental(&here, 999999999, 0, 0, 0);
    put_incremental(&here, 999999999, 0, 7, 1);
    put_incremental(&here, 999999999, 2250, 0, 1);
    put_incremental(&here, 999999999, 8191, 7, 0);
    check_lines(&check, &here, "heard 999999999 0\nheard 999999999 1\nheard 999999999 1\nheard 999999999 3\n"
                "sum 20246 0 4 20250\n", "incremental");
    log_new(&here);
    put_text(&here, "plan 0 30 100\nchoose 0 0 3 0\n");
    put_incremental(&here, 5, 91, 4, 0);
    check_lines(&check, &here, "plan 30 100\nown 93 93 15 0\nheard 5 4\nsum 20242 4 4 20250\n", "own marks stay");
    check_report(&check, report);
}

static void check_not_heard(struct check *check, uint32_t id, uint32_t repeat, uint32_t source, const char *number,
                            const char *what)
{
    struct text lines = {.len = 0};
    const struct spoken spoken = {.repeat = repeat, .source = source, .said = {.time_out = 7}};
    text_add(&lines, "at 77 0 0\nrefused %s\n" SUM_NEW, number);
    log_new(&here);
    put_text(&here, "own 0 77 0 0\n");
    put_hear(&here, 0, id, &spoken);
    check_lines(check, &here, lines.chars, what);
}

static void test_not_heard(struct report *report)
{
    struct check check = {.name = "messages that are refused: 18, 21, 22, in this order"};
    check_not_heard(&check, 0, 0, 1, "18", "id 0");
    check_not_heard(&check, 5, 0, 1, "18", "id 5");
    check_not_heard(&check, 20, 0, 1, "18", "id 20");
    check_not_heard(&check, 63, 0, 1, "18", "id 63");
    check_not_heard(&check, 9, 3, 0, "18", "id 9, repeat 3, source 0");
    check_not_heard(&check, 1, 3, 0, "21", "repeat 3, source 0");
    check_not_heard(&check, 4, 0, 77, "21", "our own source");
    check_not_heard(&check, 1, 0, 1000000000, "21", "a source too great");
    check_not_heard(&check, 2, 3, 76, "22", "repeat 3");
    check_report(&check, report);
}

/* 255 stations, each in a slot of its own and with one mark; then one more. */
static void test_full_register(struct report *report)
{
    struct check check = {.name = "23: 255 stations with marks, and one more"};
    struct text lines = {.len = 0};
    log_new(&here);
    for (uint32_t source = 1; source <= 255; source++) {
        put_self_organised(&here, 1, source, 1, 0);
        text_add(&lines, "heard %u 1\n", (unsigned)source);
    }
    put_self_organised(&here, 1, 256, 1, 0);
    put_self_organised(&here, 0, 200, 2, 0);
    put_self_organised(&here, 2250 - 255, 256, 1, 0);
    put_self_organised(&here, 1, 256, 1, 0);
    text_add(&lines, "refused 23\nheard 200 2\nrefused 23\nheard 256 1\nsum 19993 0 257 20250\n");
    check_lines(&check, &here, lines.chars, "lines");
    check_report(&check, report);
}

void log_lines_by_hand(struct report *report)
{
    test_plan(report);
    test_own(report);
    test_choose(report);
    test_no_candidate(report);
    test_replaced(report);
    test_heard(report);
    test_not_heard(report);
    test_full_register(report);
}
