/* strange_book.c - a book full of random numbers, and what the tests ask of it. */
#include "strange_book.h"

#include "random.h"

enum { FEW_RECORDS = 6 };

struct lent strange, strange_expected;

static struct random random = {451};

/* ---- books full of random numbers ---- */

uint32_t strange_below(uint32_t limit)
{
    return (uint32_t)random_below(&random, limit);
}

static uint16_t random_count(void)
{
    const uint16_t values[] = {0, 0, 1, 2, 20249, 20250, 20251, 65535};
    return strange_below(3) == 0 ? (uint16_t)strange_below(0x10000) : values[strange_below(8)];
}

/* Known ones mostly, many as far as each other, some about the limits. */
static int32_t random_coordinate(int32_t limit)
{
    switch (strange_below(16)) {
    case 0:
        return random_number(&random, INT32_MIN, INT32_MAX);
    case 1:
        return limit - 1 + (int32_t)strange_below(3);
    case 2:
        return 1 - limit - (int32_t)strange_below(3);
    case 3:
    case 4:
        return random_number(&random, -limit, limit);
    default:
        return 100 * (int32_t)strange_below(3);
    }
}

static struct station random_record(void)
{
    struct station record;
    record.source = strange_below(300);
    record.base = strange_below(8) == 0;
    record.latitude = random_coordinate(54000000);
    record.longitude = random_coordinate(108000000);
    record.tally = random_count();
    record.hold_off = strange_below(6) == 0 ? random_count() : 0;
    return record;
}

/* So many of a thousand slots are held, most of them by few stations. */
static uint16_t random_holder(uint32_t held, uint32_t own)
{
    if (strange_below(1000) >= held) {
        return HOLDER_NONE;
    }
    if (strange_below(1000) < own) {
        return HOLDER_OWN;
    }
    switch (strange_below(8)) {
    case 0:
        return (uint16_t)strange_below(0x10000);
    case 1:
        return (uint16_t)(1 + strange_below(SECOND_RECORDS));
    default:
        return (uint16_t)(1 + strange_below(FEW_RECORDS));
    }
}

static struct plan random_plan(void)
{
    struct plan plan;
    bool any = strange_below(8) == 0;
    plan.rate = (uint16_t)(any ? random_count() : 1 + strange_below(30));
    plan.start = (uint16_t)(any ? random_count() : strange_below(2250));
    return plan;
}

static size_t random_now(void)
{
    size_t far = strange_below(0xFFFFFFFF);
    return random_coin(&random) ? strange_below(SECOND_SLOTS) : far * strange_below(0xFFFFFFFF);
}

static void make_own(size_t ahead)
{
    strange.slots[(strange.book.now % SECOND_SLOTS + ahead) % SECOND_SLOTS] = HOLDER_OWN;
}

void strange_make_own(void)
{
    size_t frames = strange_below(10), others = strange_below(3) * 20;
    for (size_t frame = 0; frame < frames; frame++) {
        make_own(SECOND_FRAME * frame);
    }
    for (size_t i = 0; i < others; i++) {
        make_own(1800 + strange_below(901));
    }
}

void strange_make(void)
{
    const uint32_t parts[] = {5, 100, 250, 500, 700, 900, 1000};
    uint32_t held = parts[strange_below(7)], own = parts[strange_below(2)];
    lent_new(&strange);
    for (size_t place = 0; place < SECOND_SLOTS; place++) {
        strange.slots[place] = random_holder(held, own);
    }
    for (size_t i = 0; i < SECOND_RECORDS; i++) {
        strange.records[i] = random_record();
    }
    strange.book.channel.free = random_count();
    strange.book.channel.own = random_count();
    strange.book.channel.plan = random_plan();
    strange.book.ship.source = strange_below(300);
    strange.book.ship.latitude = random_coordinate(54000000);
    strange.book.ship.longitude = random_coordinate(108000000);
    strange.book.now = random_now();
}

/* ---- what is asked of the book ---- */

uint16_t *strange_holder(size_t ahead)
{
    return &strange_expected.slots[(strange_expected.book.now % 20250 + ahead) % 20250];
}

bool strange_has_no_plan(void)
{
    struct plan plan = strange_expected.book.channel.plan;
    return plan.rate == 0 || plan.rate > 30 || plan.start > 2249;
}

bool strange_is_at(size_t ahead, uint32_t k, long from_middle)
{
    struct plan plan = strange_expected.book.channel.plan;
    long middle = plan.start + (long)(2250 * k / plan.rate);
    long number = (long)((strange_expected.book.now % 2250 + ahead) % 2250);
    return (number + 3 * 2250 - middle - from_middle) % 2250 == 0;
}
