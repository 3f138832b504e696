/* logs.c - random event logs of each kind. */
#include "logs.h"

#include "log_maker.h"

#include <string.h>

#define COUNT_OF(list) (sizeof(list) / sizeof(list)[0])

enum { RECORDS_MIN = 500, RECORDS_MAX = 2000, BYTES_MAX = 20000, BODIES_MAX = 300 };
enum { DAMAGES_MAX = 4, DAMAGED_BYTES_MAX = 12 };

const char *const log_kind_names[LOG_KINDS] = {
    [LOG_SPARSE] = "sparse",           [LOG_DENSE] = "dense", [LOG_CROWDED] = "crowded",
    [LOG_ADVERSARIAL] = "adversarial", [LOG_BYTES] = "bytes", [LOG_DAMAGED] = "damaged",
};

static const struct log_style sparse = {
    .stations_min = 3, .stations_max = 15, .rate_min = 1, .rate_max = 10, .passes_max = 120, .far_passes = 40,
    .long_passes = 4, .choices = 50, .crowds = 2,
};
static const struct log_style dense = {
    .stations_min = 60, .stations_max = 200, .rate_min = 1, .rate_max = 30, .passes_max = 12, .far_passes = 4,
    .choices = 20, .crowds = 3,
};
static const struct log_style crowded_windows = {
    .stations_min = 2, .stations_max = 40, .rate_min = 8, .rate_max = 30, .passes_max = 5, .far_passes = 6,
    .choices = 40, .crowds = 15,
};
static const struct log_style crowded_register = {
    .stations_min = 270, .stations_max = 400, .rate_min = 8, .rate_max = 30, .passes_max = 3, .choices = 5,
    .lasting = true,
};
static const struct log_style adversarial = {
    .stations_min = 2, .stations_max = 300, .rate_min = 5, .rate_max = 30, .passes_max = 10, .far_passes = 8,
    .long_passes = 3, .choices = 30, .crowds = 4, .strange = 40,
};

/* ---- a log as it grows ---- */

void log_new(struct log *log)
{
    log->len = 0;
}

void log_add(struct log *log, const uint8_t *bytes, size_t len)
{
    if (len > SECOND_LOG_ROOM - log->len) {
        return;
    }
    memcpy(log->bytes + log->len, bytes, len);
    log->len += len;
}

void log_add_record(struct log *log, const struct log_record *record)
{
    uint8_t bytes[SECOND_RECORD_MAX];
    log_add(log, bytes, log_record_write(record, bytes));
}

/* ---- logs of records ---- */

static void make_in_style(struct log *log, struct random *random, const struct log_style *style)
{
    static struct log_maker maker;
    size_t records = random_from_to(random, RECORDS_MIN, RECORDS_MAX);
    maker.random = *random;
    maker_new(&maker, log, style);
    while (maker.records < records) {
        maker_add(&maker);
    }
    *random = maker.random;
}

static void make_good(struct log *log, struct random *random, enum log_kind kind)
{
    bool by_register = random_coin(random);
    const struct log_style *styles[] = {
        [LOG_SPARSE] = &sparse,
        [LOG_DENSE] = &dense,
        [LOG_CROWDED] = by_register ? &crowded_register : &crowded_windows,
        [LOG_ADVERSARIAL] = &adversarial,
    };
    make_in_style(log, random, styles[kind]);
}

/* ---- arbitrary bytes ---- */

/* Small numbers of two bytes, those that lengths and kinds have: some records are in order. */
static void fill_small(struct random *random, uint8_t *bytes, size_t len)
{
    static const uint8_t small[] = {0, 1, 2, 2, 3, 3, 4, 5, 7, 7, 7, 8, 8, 8, 16};
    for (size_t i = 0; i < len; i++) {
        bool high = i % 2 == 1 && random_below(random, 30) > 0;
        bytes[i] = high ? 0 : small[random_below(random, sizeof small)];
    }
}

/* Records of short lengths and small kinds, half of them fitting, with a body of any kind. There are few: such bodies
 * let much time pass. */
static void make_bodies(struct log *log, struct random *random)
{
    uint8_t body[SECOND_RECORD_MAX + 1];
    size_t records = random_from_to(random, 1, BODIES_MAX);
    for (size_t i = 0; i < records; i++) {
        uint32_t kind = (uint32_t)random_below(random, RECORD_KINDS_END + 1);
        size_t length = random_below(random, SECOND_RECORD_MAX);
        bool known = kind >= RECORD_HEAR && kind < RECORD_KINDS_END;
        length = known && random_coin(random) ? log_record_length(kind) : length;
        fill_random(random, body, sizeof body);
        body[0] = (uint8_t)length;
        body[1] = 0;
        body[2] = (uint8_t)kind;
        body[3] = random_below(random, 10) == 0;
        log_add(log, body, SECOND_LENGTH_BYTES + length);
    }
}

static void make_bytes(struct log *log, struct random *random)
{
    static void (*const fills[])(struct random *, uint8_t *, size_t) = {
        fill_random, fill_poor_in_ones, fill_rich_in_ones, fill_small, fill_small,
    };
    static uint8_t bytes[BYTES_MAX];
    size_t len = random_below(random, BYTES_MAX + 1);
    if (random_below(random, 4) == 0) {
        make_bodies(log, random);
        return;
    }
    fills[random_below(random, COUNT_OF(fills))](random, bytes, len);
    log_add(log, bytes, len);
}

/* ---- damage ---- */

/* Half of the time late, so that much goes before it. */
static void cut(struct log *log, struct random *random)
{
    size_t earliest = random_coin(random) ? 0 : log->len / 2;
    log->len = random_from_to(random, earliest, log->len);
}

static void change_bytes(struct log *log, struct random *random)
{
    size_t changes = random_from_to(random, 1, DAMAGED_BYTES_MAX);
    for (size_t i = 0; i < changes && log->len > 0; i++) {
        size_t place = random_below(random, log->len);
        log->bytes[place] = random_byte(random);
    }
}

static void take_out(struct log *log, struct random *random)
{
    size_t from = random_below(random, log->len + 1);
    size_t len = random_from_to(random, 1, DAMAGED_BYTES_MAX);
    len = len < log->len - from ? len : log->len - from;
    memmove(log->bytes + from, log->bytes + from + len, log->len - from - len);
    log->len -= len;
}

static void put_in(struct log *log, struct random *random)
{
    size_t from = random_below(random, log->len + 1);
    size_t len = random_from_to(random, 1, DAMAGED_BYTES_MAX);
    if (len > SECOND_LOG_ROOM - log->len) {
        return;
    }
    memmove(log->bytes + from + len, log->bytes + from, log->len - from);
    fill_random(random, log->bytes + from, len);
    log->len += len;
}

static void damage(struct log *log, struct random *random)
{
    static void (*const damages[])(struct log *, struct random *) = {cut, change_bytes, change_bytes, take_out, put_in};
    size_t count = random_from_to(random, 1, DAMAGES_MAX);
    for (size_t i = 0; i < count; i++) {
        damages[random_below(random, COUNT_OF(damages))](log, random);
    }
}

/* ---- any kind ---- */

/* The last record of some adversarial logs is cut. */
static void cut_last_record(struct log *log, struct random *random)
{
    uint8_t bytes[SECOND_RECORD_MAX];
    struct log_record record = {.kind = (uint32_t)random_from_to(random, RECORD_HEAR, RECORD_OWN), .passes = 65535};
    size_t len = log_record_write(&record, bytes);
    size_t left = random_coin(random) ? random_from_to(random, 1, 4) : random_from_to(random, 1, len - 1);
    log_add(log, bytes, left);
}

void log_make(struct log *log, uint64_t seed, enum log_kind kind)
{
    struct random random = {seed * LOG_KINDS + kind};
    log_new(log);
    if (kind == LOG_BYTES) {
        make_bytes(log, &random);
        return;
    }
    if (kind == LOG_DAMAGED) {
        make_good(log, &random, (enum log_kind)random_from_to(&random, LOG_SPARSE, LOG_ADVERSARIAL));
        damage(log, &random);
        return;
    }
    make_good(log, &random, kind);
    if (kind == LOG_ADVERSARIAL && random_coin(&random)) {
        cut_last_record(log, &random);
    }
}
