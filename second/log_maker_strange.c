/* log_maker_strange.c - records of a random event log that are refused, or at a limit of what is not, and bytes that
 * are no record in order. */
#include "log_maker.h"

#define COUNT_OF(list) (sizeof(list) / sizeof(list)[0])

/* One record in so many of those with a wrong length is as long as can be. */
enum { SHORT_BODY = 40, LONGEST_SELDOM = 60 };

static uint32_t one_of(struct log_maker *maker, const uint32_t *list, size_t count)
{
    return list[random_below(&maker->random, count)];
}

/* ---- hearing ---- */

static void add_strange_id(struct log_maker *maker)
{
    static const uint32_t ids[] = {0, 5, 9, 18, 20, 27, 63};
    struct log_record record = maker_begin(maker, RECORD_HEAR);
    struct spoken spoken = maker_spoken(maker);
    spoken.repeat = maker_drawn(maker, 0, 3);
    uint32_t id = one_of(maker, ids, COUNT_OF(ids));
    maker_speak(maker, id, &spoken, record.message);
    maker_end(maker, &record);
}

static void add_strange_source(struct log_maker *maker)
{
    static const uint32_t sources[] = {0, 1, 999999999, 1000000000, 1073741823};
    struct log_record record = maker_begin(maker, RECORD_HEAR);
    struct spoken spoken = maker_spoken(maker);
    spoken.source = one_of(maker, sources, COUNT_OF(sources));
    spoken.source = maker_chance(maker, 30) ? maker->beside.book.ship.source : spoken.source;
    spoken.repeat = maker_chance(maker, 30) ? maker_drawn(maker, 0, 3) : 0;
    uint32_t id = maker_id(maker);
    maker_speak(maker, id, &spoken, record.message);
    maker_end(maker, &record);
}

static void add_repeated(struct log_maker *maker)
{
    struct log_record record = maker_begin(maker, RECORD_HEAR);
    struct spoken spoken = maker_spoken(maker);
    spoken.repeat = maker_drawn(maker, 1, 3);
    uint32_t id = maker_id(maker);
    maker_speak(maker, id, &spoken, record.message);
    maker_end(maker, &record);
}

/* All bits past the source are of any kind: position and state too. */
static void add_any_bits(struct log_maker *maker)
{
    struct log_record record = maker_begin(maker, RECORD_HEAR);
    struct spoken spoken = maker_spoken(maker);
    uint32_t id = maker_id(maker);
    maker_speak(maker, id, &spoken, record.message);
    maker_scatter(maker, record.message, 38, 167);
    maker_end(maker, &record);
}

/* Positions at the limits of what is known. */
static void add_position_at_limit(struct log_maker *maker)
{
    static const int32_t limits[] = {-1, 0, 1};
    struct log_record record = maker_begin(maker, RECORD_HEAR);
    struct spoken spoken = maker_spoken(maker);
    spoken.said = (struct announcement){.time_out = 7};
    int32_t past_latitude = limits[random_below(&maker->random, COUNT_OF(limits))];
    int32_t past_longitude = limits[random_below(&maker->random, COUNT_OF(limits))];
    spoken.latitude = random_coin(&maker->random) ? 54000000 + past_latitude : -54000000 - past_latitude;
    spoken.longitude = random_coin(&maker->random) ? 108000000 + past_longitude : -108000000 - past_longitude;
    maker_speak(maker, 1, &spoken, record.message);
    maker_end(maker, &record);
}

/* ---- the other calls ---- */

static void add_strange_choice(struct log_maker *maker)
{
    static const uint32_t time_outs[] = {0, 2, 3, 5, 7, 8, 255};
    struct log_record record = maker_begin(maker, RECORD_CHOOSE);
    uint32_t rate = maker->beside.book.channel.plan.rate;
    uint32_t ks[] = {0, rate == 0 ? 0 : rate - 1, rate, rate + 1, 255};
    record.k = (uint8_t)one_of(maker, ks, COUNT_OF(ks));
    record.time_out = (uint8_t)one_of(maker, time_outs, COUNT_OF(time_outs));
    record.draw = (uint16_t)(random_coin(&maker->random) ? 65535 : 65536 - maker_drawn(maker, 1, 500));
    maker_end(maker, &record);
}

static void add_strange_plan(struct log_maker *maker)
{
    static const uint32_t rates[] = {0, 1, 30, 31, 255}, starts[] = {0, 2249, 2250, 65535};
    struct log_record record = maker_begin(maker, RECORD_PLAN);
    record.rate = (uint8_t)one_of(maker, rates, COUNT_OF(rates));
    record.start = (uint16_t)one_of(maker, starts, COUNT_OF(starts));
    maker_end(maker, &record);
}

static void add_strange_own(struct log_maker *maker)
{
    static const uint32_t sources[] = {0, 1, 123, 999999999, 1000000000, UINT32_MAX};
    static const int32_t latitudes[] = {0, 54000000, -54000000, 54000001, -54000001, 54600000, INT32_MIN, INT32_MAX};
    static const int32_t longitudes[] = {0,          108000000, -108000000, 108000001,
                                         -108000001, 108600000, INT32_MIN,  INT32_MAX};
    struct log_record record = maker_begin(maker, RECORD_OWN);
    record.source = one_of(maker, sources, COUNT_OF(sources));
    record.latitude = latitudes[random_below(&maker->random, COUNT_OF(latitudes))];
    record.longitude = longitudes[random_below(&maker->random, COUNT_OF(longitudes))];
    maker_end(maker, &record);
}

/* ---- records that are skipped ---- */

static void add_bytes(struct log_maker *maker, size_t length, size_t kind)
{
    static uint8_t body[SECOND_COUNTED_MAX];
    const uint8_t head[] = {(uint8_t)length, (uint8_t)(length >> 8), (uint8_t)kind, (uint8_t)(kind >> 8)};
    fill_random(&maker->random, body, length);
    log_add(maker->log, head, length < 2 ? 2 + length : sizeof head);
    log_add(maker->log, body, length < 2 ? 0 : length - 2);
    maker->records++;
}

static void add_short(struct log_maker *maker)
{
    size_t length = random_below(&maker->random, 2);
    add_bytes(maker, length, random_byte(&maker->random));
}

static void add_unknown_kind(struct log_maker *maker)
{
    static const uint32_t kinds[] = {0, 5, 256, 257, 258, 259, 260, 261, 512, 768, 1024, 65535};
    static const uint32_t lengths[] = {2, 7, 8, 16, 25};
    uint32_t kind = one_of(maker, kinds, COUNT_OF(kinds));
    uint32_t length = one_of(maker, lengths, COUNT_OF(lengths));
    add_bytes(maker, length, kind);
}

/* Where the length drawn is the right one, it is made one more. */
static void add_wrong_length(struct log_maker *maker)
{
    uint32_t kind = maker_drawn(maker, RECORD_HEAR, RECORD_OWN);
    size_t length = maker_drawn(maker, 2, SHORT_BODY);
    length = random_below(&maker->random, LONGEST_SELDOM) == 0 ? SECOND_COUNTED_MAX : length;
    add_bytes(maker, length == log_record_length(kind) ? length + 1 : length, kind);
}

void maker_add_strange(struct log_maker *maker)
{
    static void (*const adds[])(struct log_maker *) = {
        add_strange_id,     add_strange_source, add_repeated,    add_any_bits, add_any_bits,     add_position_at_limit,
        add_strange_choice, add_strange_choice, add_strange_own, add_short,    add_unknown_kind, add_wrong_length,
    };
    if (maker_chance(maker, 3)) {
        add_strange_plan(maker);
        return;
    }
    adds[random_below(&maker->random, COUNT_OF(adds))](maker);
}
