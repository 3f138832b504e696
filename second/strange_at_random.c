/* strange_at_random.c - single calls on books full of random numbers. What has to come out is worked out step by step
 * from the rules for such books, with all counts in one list by holder. */
#include "book_by_hand.h"
#include "book_case.h"
#include "random.h"

#include <string.h>

enum { BOOKS = 4000, SOURCES = 300, PASSES_MAX = 400, HOLDERS = 0x10000 };

static struct lent lent, expected;
static long counts[HOLDERS];
static struct random random = {20250};

/* ---- books full of random numbers ---- */

static uint32_t below(uint32_t limit)
{
    return (uint32_t)random_below(&random, limit);
}

/* About the limits, or anything. */
static uint16_t random_count(void)
{
    const uint16_t values[] = {0, 0, 1, 2, 20249, 20250, 20251, 65535};
    return below(3) == 0 ? (uint16_t)below(0x10000) : values[below(8)];
}

static int32_t any_number(void)
{
    return random_number(&random, INT32_MIN, INT32_MAX);
}

static uint16_t random_holder(void)
{
    const uint32_t limits[] = {1, 4, 256, 257, 260, 0x10000};
    return (uint16_t)below(limits[below(6)]);
}

static size_t random_now(void)
{
    return below(2) == 0 ? below(SECOND_SLOTS) : (size_t)below(0xFFFFFFFF) * below(0xFFFFFFFF);
}

static struct station random_record(bool full)
{
    struct station record;
    record.source = below(SOURCES);
    record.base = random_coin(&random);
    record.latitude = any_number();
    record.longitude = any_number();
    record.tally = random_count();
    record.hold_off = random_count();
    if (full && record.tally == 0) {
        record.tally = 1;
    }
    return record;
}

/* The test's own answer starts from the same numbers. */
static void make_book(void)
{
    bool full = random_coin(&random);
    lent_new(&lent);
    for (size_t place = 0; place < SECOND_SLOTS; place++) {
        lent.slots[place] = random_holder();
    }
    for (size_t i = 0; i < SECOND_RECORDS; i++) {
        lent.records[i] = random_record(full);
    }
    lent.book.channel.free = random_count();
    lent.book.channel.own = random_count();
    lent.book.channel.plan.rate = random_count();
    lent.book.channel.plan.start = random_count();
    lent.book.ship.source = below(SOURCES);
    lent.book.ship.latitude = any_number();
    lent.book.ship.longitude = any_number();
    lent.book.now = random_now();
    expected = lent;
}

/* ---- the counts of all holders in one list; a holder without a record has one that nobody reads ---- */

static void load_counts(void)
{
    memset(counts, 0, sizeof counts);
    counts[HOLDER_NONE] = expected.book.channel.free;
    counts[HOLDER_OWN] = expected.book.channel.own;
    for (size_t i = 0; i < SECOND_RECORDS; i++) {
        counts[i + 1] = expected.records[i].tally;
    }
}

static void store_counts(void)
{
    expected.book.channel.free = (uint16_t)counts[HOLDER_NONE];
    expected.book.channel.own = (uint16_t)counts[HOLDER_OWN];
    for (size_t i = 0; i < SECOND_RECORDS; i++) {
        expected.records[i].tally = (uint16_t)counts[i + 1];
    }
}

static size_t place_ahead(size_t ahead)
{
    return (expected.book.now % 20250 + ahead) % 20250;
}

static void give(size_t place, uint16_t holder)
{
    uint16_t old = expected.slots[place];
    counts[old] -= counts[old] > 0 ? 1 : 0;
    counts[holder] += counts[holder] < 20250 ? 1 : 0;
    expected.slots[place] = holder;
}

/* ---- hearing ---- */

static bool is_frame(size_t ahead)
{
    return ahead % 2250 == 0 && ahead >= 2250 && ahead <= 7 * 2250;
}

static bool is_in_block(const struct announcement *said, size_t ahead)
{
    size_t first = said->slots_code < 5 ? said->increment : said->increment + 8192;
    size_t slots = said->slots_code < 5 ? said->slots_code + 1 : said->slots_code - 4;
    return said->increment > 0 && ahead >= first && ahead < first + slots;
}

static bool is_marked(uint32_t id, const struct announcement *said, size_t ahead)
{
    if (id == 3) {
        return (said->keep == 1 && ahead == 2250) || is_in_block(said, ahead);
    }
    bool at_offset = said->time_out == 0 && said->offset > 0 && ahead == said->offset;
    return at_offset || (is_frame(ahead) && ahead / 2250 <= said->time_out);
}

static bool is_freed(uint32_t id, const struct announcement *said, size_t ahead)
{
    return id != 3 && is_frame(ahead) && ahead / 2250 > said->time_out;
}

/* Every time ahead is asked for by itself: first whether it is freed, then whether it is marked. Returns MARKS. */
static uint32_t expect_marks(uint32_t id, uint16_t record, const struct announcement *said)
{
    uint32_t marks = 0;
    for (size_t ahead = 0; ahead < SECOND_SLOTS; ahead++) {
        if (is_freed(id, said, ahead) && expected.slots[place_ahead(ahead)] == record) {
            give(place_ahead(ahead), HOLDER_NONE);
        }
    }
    for (size_t ahead = 0; ahead < SECOND_SLOTS; ahead++) {
        if (is_marked(id, said, ahead) && expected.slots[place_ahead(ahead)] != HOLDER_OWN) {
            give(place_ahead(ahead), record);
            marks++;
        }
    }
    return marks;
}

/* Searched from the end, the last one found is the lowest-numbered. */
static uint16_t expect_record(uint32_t source)
{
    uint16_t known = 0, empty = 0;
    for (uint16_t number = SECOND_RECORDS; number >= 1; number--) {
        known = expected.records[number - 1].source == source ? number : known;
        empty = expected.records[number - 1].tally == 0 ? number : empty;
    }
    return known != 0 ? known : empty;
}

static uint32_t expect_hearing(uint32_t id, const struct spoken *spoken, uint32_t *marks)
{
    uint16_t number = expect_record(spoken->source);
    if (spoken->source == 0 || spoken->source == expected.book.ship.source) {
        return 21;
    }
    if (spoken->repeat > 0 || number == 0) {
        return spoken->repeat > 0 ? 22 : 23;
    }
    struct station *record = &expected.records[number - 1];
    bool known = record->source == spoken->source;
    *record = (struct station){
        .source = spoken->source,
        .base = id == 4,
        .latitude = spoken->latitude,
        .longitude = spoken->longitude,
        .tally = record->tally,
        .hold_off = known ? record->hold_off : 0,
    };
    load_counts();
    *marks = expect_marks(id, number, &spoken->said);
    store_counts();
    return 0;
}

static struct spoken random_spoken(void)
{
    struct spoken spoken = {.base = false};
    spoken.repeat = below(20) == 0 ? 1 : 0;
    spoken.source = below(SOURCES);
    spoken.latitude = random_number(&random, -67108864, 67108863);
    spoken.longitude = random_number(&random, -134217728, 134217727);
    spoken.said.time_out = below(8);
    spoken.said.offset = below(2) == 0 ? 2250 * below(8) : below(16384);
    spoken.said.increment = below(2) == 0 ? 2245 + below(7) : below(8192);
    spoken.said.slots_code = below(8);
    spoken.said.keep = below(2);
    return spoken;
}

/* The station holds about half of the times that its report speaks of: there the order of the steps shows. */
static void let_hold(uint32_t id, const struct spoken *spoken)
{
    uint16_t record = expect_record(spoken->source);
    for (size_t ahead = 0; ahead < SECOND_SLOTS; ahead++) {
        bool spoken_of = is_freed(id, &spoken->said, ahead) || is_marked(id, &spoken->said, ahead);
        if (spoken_of && random_coin(&random)) {
            lent.slots[place_ahead(ahead)] = record;
        }
    }
    expected = lent;
}

static void try_hear(struct check *check)
{
    uint32_t id = 1 + below(4), marks = heard_nothing.marks;
    struct spoken spoken = random_spoken();
    make_book();
    let_hold(id, &spoken);
    uint32_t number = expect_hearing(id, &spoken, &marks);
    struct outcome outcome = lent_hear(&lent, id, &spoken);
    check_that(check, outcome.number == number && outcome.heard.marks == marks, "number or marks");
    check_that(check, lent_same(&expected, &lent), number == 0 ? "what hearing leaves" : "a refusal changed something");
}

/* ---- the other calls ---- */

static void try_pass(struct check *check)
{
    uint32_t passes = below(PASSES_MAX + 1);
    make_book();
    load_counts();
    for (uint32_t pass = 0; pass < passes; pass++) {
        give(place_ahead(0), HOLDER_NONE);
        expected.book.now = place_ahead(1);
        for (size_t i = 0; i < SECOND_RECORDS; i++) {
            expected.records[i].hold_off -= expected.records[i].hold_off > 0 ? 1 : 0;
        }
    }
    store_counts();
    check_that(check, second_pass(&lent.book, passes) == 0 && lent_same(&expected, &lent), "what passing leaves");
}

static void try_plan(struct check *check)
{
    uint16_t rate = (uint16_t)(1 + below(30)), start = (uint16_t)below(2250);
    make_book();
    load_counts();
    for (size_t ahead = 0; ahead < SECOND_SLOTS; ahead++) {
        if (expected.slots[place_ahead(ahead)] == HOLDER_OWN) {
            give(place_ahead(ahead), HOLDER_NONE);
        }
    }
    store_counts();
    expected.book.channel.plan = (struct plan){rate, start};
    check_that(check, second_plan(&lent.book, rate, start) == 0 && lent_same(&expected, &lent), "what a plan leaves");
}

static void try_own(struct check *check)
{
    make_book();
    expected.book.ship.source = 1 + below(SOURCES);
    expected.book.ship.latitude = random_number(&random, -54000000, 54000000);
    expected.book.ship.longitude = random_number(&random, -108000000, 108000000);
    const struct ship *ship = &expected.book.ship;
    check_that(check, second_own(&lent.book, ship->source, ship->latitude, ship->longitude) == 0, "own refused");
    check_that(check, lent_same(&expected, &lent), "what own leaves");
}

void strange_books_at_random(struct report *report)
{
    struct check hear = {.name = "hear on books full of random numbers"};
    struct check others = {.name = "pass, plan and own on books full of random numbers"};
    for (size_t i = 0; i < BOOKS; i++) {
        try_hear(&hear);
        switch (i % 3) {
        case 0:
            try_pass(&others);
            break;
        case 1:
            try_plan(&others);
            break;
        default:
            try_own(&others);
            break;
        }
    }
    check_report(&hear, report);
    check_report(&others, report);
}
