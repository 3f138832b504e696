/* book_said.c - what the stations of the random calls say: reports of every kind, mostly in order. */
#include "book_calls.h"

/* Here and in the calls each number is drawn in a statement of its own, so that every compiler draws alike. */
enum { OUT_OF = 40 };

bool seldom(struct book_run *run)
{
    return random_below(&run->random, OUT_OF) == 0;
}

uint32_t from_to(struct book_run *run, uint32_t first, uint32_t last)
{
    return (uint32_t)random_from_to(&run->random, first, last);
}

static uint32_t random_offset(struct book_run *run)
{
    switch (random_below(&run->random, 4)) {
    case 0:
        return SECOND_FRAME * from_to(run, 1, 7);
    case 1:
        return run->traffic->crowded ? 1 : 0;
    default:
        return from_to(run, 0, 16383);
    }
}

static uint32_t random_increment(struct book_run *run)
{
    switch (random_below(&run->random, 4)) {
    case 0:
        return from_to(run, 2244, 2252);
    case 1:
        return run->traffic->crowded ? 8191 : 0;
    default:
        return from_to(run, 0, 8191);
    }
}

struct announcement random_announcement(struct book_run *run, enum state_kind kind)
{
    struct announcement said = {.kind = kind};
    said.time_out = from_to(run, run->traffic->crowded ? 1 : 0, 7);
    said.offset = random_offset(run);
    said.increment = random_increment(run);
    said.slots_code = from_to(run, 0, 7);
    said.keep = from_to(run, 0, 1);
    return said;
}

/* Past the widths of a message: about the end of the book, and any number of 32 bits. */
static void go_far(struct book_run *run, struct announcement *said)
{
    said->time_out = random_coin(&run->random) ? 0 : said->time_out;
    said->offset = from_to(run, 20240, 20253);
    said->slots_code = from_to(run, 0, 9);
    said->increment = said->slots_code < 5 ? from_to(run, 20240, 20251) : from_to(run, 12050, 12059);
    said->keep = from_to(run, 0, 2);
    if (seldom(run)) {
        said->slots_code = from_to(run, 2000, 12065);
        said->increment = from_to(run, 0, 9);
    }
    if (seldom(run)) {
        uint32_t *const numbers[] = {&said->time_out, &said->offset, &said->slots_code, &said->increment, &said->keep};
        uint32_t *number = numbers[random_below(&run->random, 5)];
        *number = from_to(run, 0, 0xFFFFFFFF);
    }
}

struct announcement any_announcement(struct book_run *run)
{
    struct announcement said = random_announcement(run, random_coin(&run->random) ? SELF_ORGANISED : INCREMENTAL);
    if (run->traffic->far && random_below(&run->random, 3) > 0) {
        go_far(run, &said);
    }
    return said;
}

uint16_t random_station(struct book_run *run)
{
    return (uint16_t)(seldom(run) ? 0 : from_to(run, 1, run->traffic->stations));
}

uint32_t random_source(struct book_run *run, uint16_t station)
{
    bool too_high = station == 0 && random_coin(&run->random);
    return too_high ? from_to(run, 1000000000, 1073741823) : model_source(station);
}

struct spoken random_spoken(struct book_run *run, uint16_t station, bool base, struct announcement said)
{
    struct spoken spoken = {.base = base, .said = said};
    spoken.repeat = seldom(run) ? from_to(run, 1, 3) : 0;
    spoken.source = random_source(run, station);
    spoken.latitude = random_number(&run->random, -67108864, 67108863);
    spoken.longitude = random_number(&run->random, -134217728, 134217727);
    return spoken;
}
