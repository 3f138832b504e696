/* windows_by_hand.c - nominal slots and their windows, worked out by hand. */
#include "choosing_by_hand.h"
#include "choosing_case.h"

#define COUNT_OF(list) (sizeof(list) / sizeof(list)[0])

static struct lent lent;

/* ---- the marked examples 1 to 4 ---- */

static uint32_t gap_after(struct plan plan, uint32_t k)
{
    uint32_t next = second_nominal_slot(plan, (k + 1) % plan.rate);
    uint32_t gap = (next + 2250 - second_nominal_slot(plan, k)) % 2250;
    return gap == 0 ? 2250 : gap;
}

static void test_nominal_slots(struct report *report)
{
    struct check check = {.name = "example 1: r 14, s 0: 0, 160, 321, 482, .. 2089; ten gaps of 161, four of 160"};
    const struct plan plan = {14, 0};
    static const uint32_t slots[] = {0, 160, 321, 482};
    unsigned gaps_of_161 = 0, gaps_of_160 = 0;
    for (uint32_t k = 0; k < COUNT_OF(slots); k++) {
        check_that(&check, second_nominal_slot(plan, k) == slots[k], "one of the first four");
    }
    check_that(&check, second_nominal_slot(plan, 13) == 2089, "the last");
    for (uint32_t k = 0; k < 14; k++) {
        gaps_of_161 += gap_after(plan, k) == 161;
        gaps_of_160 += gap_after(plan, k) == 160;
    }
    check_that(&check, gaps_of_161 == 10 && gaps_of_160 == 4, "gaps");
    check_report(&check, report);
}

/* Nearest are the last slot of a window and the first of the next, farthest its first and the last of the next. */
static void test_distances(struct report *report)
{
    struct check check = {.name = "examples 2 to 4: reach, slots and distances of neighbouring windows"};
    static const struct {
        uint16_t rate;
        uint32_t reach, slots, nearest, farthest;
    } examples[] = {{30, 7, 15, 61, 89}, {14, 16, 33, 128, 193}, {1, 225, 451, 1800, 2700}};
    for (size_t i = 0; i < COUNT_OF(examples); i++) {
        const struct plan plan = {examples[i].rate, 0};
        uint32_t nearest = 9999, farthest = 0, slots = second_window_slots(plan);
        for (uint32_t k = 0; k < plan.rate; k++) {
            uint32_t nearest_here = gap_after(plan, k) - (slots - 1), farthest_here = gap_after(plan, k) + slots - 1;
            nearest = nearest_here < nearest ? nearest_here : nearest;
            farthest = farthest_here > farthest ? farthest_here : farthest;
        }
        check_that(&check, second_reach(plan) == examples[i].reach && slots == examples[i].slots, "reach or slots");
        check_that(&check, nearest == examples[i].nearest && farthest == examples[i].farthest, "distances");
    }
    check_report(&check, report);
}

/* ---- every plan ---- */

/* The slots of all windows of a plan, each slot number counted as often as it comes. */
static bool windows_apart(struct plan plan)
{
    unsigned char times[2250] = {0};
    bool apart = true;
    for (uint32_t k = 0; k < plan.rate; k++) {
        for (uint32_t i = 0; i < second_window_slots(plan); i++) {
            uint32_t number = (second_first_slot(plan, k) + i) % 2250;
            apart = apart && times[number] == 0;
            times[number] = 1;
        }
    }
    return apart;
}

static void check_plan(struct check *check, struct plan plan)
{
    uint32_t sum = 0, reach = 225u / plan.rate;
    for (uint32_t k = 0; k < plan.rate; k++) {
        uint32_t nominal = second_nominal_slot(plan, k), gap = gap_after(plan, k);
        check_that(check, gap == 2250u / plan.rate || gap == 2250u / plan.rate + (2250 % plan.rate != 0), "gap");
        check_that(check, nominal < 2250 && (second_first_slot(plan, k) + reach) % 2250 == nominal, "first slot");
        sum += gap;
    }
    check_that(check, sum == 2250 && second_nominal_slot(plan, 0) == plan.start, "not once round the frame");
    check_that(check, windows_apart(plan), "windows overlap");
}

static void test_every_plan(struct report *report)
{
    struct check check = {.name = "every plan: the gaps add up to 2250, each the step rounded; windows do not overlap"};
    for (uint16_t rate = 1; rate <= 30; rate++) {
        for (uint16_t start = 0; start < 2250; start++) {
            check_plan(&check, (struct plan){rate, start});
        }
    }
    check_report(&check, report);
}

/* ---- the window meant, and the one that now lies in ---- */

/* With r 14, s 0 window 0 has the slots 2234 to 2249 and 0 to 16, window 1 has 144 to 176. */
static void test_window_meant(struct report *report)
{
    struct check check = {.name = "the window meant begins 1 to 2250 ahead, and a frame later where now is in it"};
    static const struct {
        size_t now;
        uint32_t k;
        size_t ahead;
    } cases[] = {
        {0, 0, 2234},     {2233, 0, 1},     {2234, 0, 2250},  {2235, 0, 2249},  {2249, 0, 2235},  {2250, 0, 2234},
        {16, 0, 2218},    {17, 0, 2217},    {0, 1, 144},      {143, 1, 1},      {144, 1, 2250},   {176, 1, 2218},
        {177, 1, 2217},   {20249, 0, 2235}, {20249, 1, 145},  {20233, 0, 1},    {20234, 0, 2250}, {20250, 0, 2234},
        {42733, 0, 1},    {65535, 1, 2109}, {20250 + 144, 1, 2250},
    };
    for (size_t i = 0; i < COUNT_OF(cases); i++) {
        lent_new_plan(&lent, 14, 0, cases[i].now);
        check_that(&check, second_window_meant(&lent.book, cases[i].k) == cases[i].ahead, "window meant");
    }
    check_report(&check, report);
}

static void test_every_now(struct report *report)
{
    struct check check = {.name = "the window meant and the next coming, from every now and for every rate"};
    for (uint16_t rate = 1; rate <= 30; rate++) {
        const struct plan plan = {rate, (uint16_t)(rate * 75u % 2250)};
        lent_new_plan(&lent, rate, plan.start, 0);
        for (size_t now = 0; now < 20250; now += rate == 30 ? 1 : 7) {
            size_t coming = 0;
            lent.book.now = now;
            for (uint32_t k = 0; k < rate; k++) {
                size_t ahead = second_window_meant(&lent.book, k);
                bool inside = ahead + 2 * second_reach(plan) >= 2250;
                check_that(&check, ahead >= 1 && ahead <= 2250, "not 1 to 2250 ahead");
                check_that(&check, (now + ahead) % 2250 == second_first_slot(plan, k), "another slot");
                coming = inside ? ahead : coming;
            }
            check_that(&check, second_next_coming(&lent.book) == coming, "next coming");
        }
    }
    check_report(&check, report);
}

static void test_next_coming(struct report *report)
{
    struct check check = {.name = "the next coming begins a frame after the window that now lies in; or there is none"};
    static const struct {
        size_t now, ahead;
    } cases[] = {
        {2233, 0}, {2234, 2250}, {2249, 2235}, {0, 2234}, {16, 2218}, {17, 0}, {143, 0}, {144, 2250}, {160, 2234},
        {176, 2218}, {177, 0}, {20234, 2250}, {20233, 0}, {20250, 2234}, {20250 + 17, 0}, {2089, 2234},
    };
    for (size_t i = 0; i < COUNT_OF(cases); i++) {
        lent_new_plan(&lent, 14, 0, cases[i].now);
        check_that(&check, second_next_coming(&lent.book) == cases[i].ahead, "next coming");
    }
    check_report(&check, report);
}

void windows_by_hand(struct report *report)
{
    test_nominal_slots(report);
    test_distances(report);
    test_every_plan(report);
    test_window_meant(report);
    test_next_coming(report);
    test_every_now(report);
}
