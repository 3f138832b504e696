/* log_maker_hearing.c - the messages of a random event log, and the crowding of windows. */
#include "book_case.h"
#include "drawn_position.h"
#include "log_maker.h"
#include "windows.h"

#define COUNT_OF(list) (sizeof(list) / sizeof(list)[0])

/* Codes of 5 and more add 8,192 to the increment, and such a block has three slots at most. Windows of more slots than
 * these are not crowded: that would take a whole log. */
enum { FAR = 8192, CODE_FAR = 5, BLOCK_MAX = 5, FAR_BLOCK_MAX = 3, CROWDED_MAX = 91, FRAMES_CROWDED = 3 };

/* ---- messages ---- */

/* Often one that is held off, where there is one: it may then hold a whole window. */
static uint32_t drawn_source(struct log_maker *maker)
{
    uint32_t station = maker_drawn(maker, 1, maker->stations);
    bool held_off_first = maker_chance(maker, 30);
    for (size_t i = 0; held_off_first && i < SECOND_RECORDS; i++) {
        if (maker->beside.records[i].hold_off > 0) {
            return maker->beside.records[i].source;
        }
    }
    return maker_source(station);
}

/* The offset is near, or at an own mark, or a frame ahead, or anything. */
static struct announcement drawn_self_organised(struct log_maker *maker)
{
    struct announcement said = {.kind = SELF_ORGANISED};
    said.time_out = maker_drawn(maker, maker->style->lasting ? 1 : 0, 7);
    said.offset = maker_drawn(maker, 0, 16383);
    switch (maker_drawn(maker, 0, 3)) {
    case 0:
        said.offset %= 2500;
        break;
    case 1:
        said.offset = (uint32_t)maker_to_own(maker) % 16384;
        break;
    case 2:
        said.offset = SECOND_FRAME * (said.offset % 8);
        break;
    default:
        break;
    }
    return said;
}

static struct announcement drawn_incremental(struct log_maker *maker)
{
    struct announcement said = {.kind = INCREMENTAL};
    said.increment = maker_chance(maker, 15) ? 0 : maker_drawn(maker, 1, 8191);
    said.increment = maker_chance(maker, 15) ? SECOND_FRAME - 1 : said.increment;
    said.slots_code = maker_drawn(maker, 0, 7);
    said.keep = maker_drawn(maker, maker->style->lasting ? 1 : 0, 1);
    return said;
}

static struct spoken spoken_by(struct log_maker *maker, uint32_t source)
{
    struct ship position = drawn_position(&maker->random);
    return (struct spoken){.source = source, .latitude = position.latitude, .longitude = position.longitude};
}

struct spoken maker_spoken(struct log_maker *maker)
{
    return spoken_by(maker, drawn_source(maker));
}

uint32_t maker_id(struct log_maker *maker)
{
    static const uint32_t ids[] = {1, 1, 1, 2, 2, 3, 3, 4};
    return ids[random_below(&maker->random, COUNT_OF(ids))];
}

void maker_scatter(struct log_maker *maker, uint8_t *message, size_t first, size_t last)
{
    for (size_t bit = first; bit <= last; bit++) {
        uint8_t mask = (uint8_t)(128 >> bit % 8);
        message[bit / 8] = (uint8_t)((message[bit / 8] & ~mask) | (random_coin(&maker->random) ? mask : 0));
    }
}

/* What hearing does not look at: before the position, and between it and the state. */
void maker_speak(struct log_maker *maker, uint32_t id, const struct spoken *spoken, uint8_t *message)
{
    bool base = id == ID_BASE_STATION;
    speak(id, spoken, message);
    maker_scatter(maker, message, 38, base ? 78 : 60);
    maker_scatter(maker, message, base ? 134 : 116, 150);
}

void maker_add_hear(struct log_maker *maker)
{
    struct log_record record = maker_begin(maker, RECORD_HEAR);
    uint32_t id = maker_id(maker);
    struct spoken spoken = maker_spoken(maker);
    spoken.said = id == ID_INCREMENTAL ? drawn_incremental(maker) : drawn_self_organised(maker);
    maker_speak(maker, id, &spoken, record.message);
    maker_end(maker, &record);
}

/* ---- crowds ---- */

/* A block so far ahead. Where it is as far as that, it has fewer slots; and 8,192 ahead cannot be said. */
static struct announcement block_at(uint32_t ahead, uint32_t slots)
{
    struct announcement said = {.kind = INCREMENTAL, .increment = ahead, .slots_code = slots - 1};
    if (ahead >= FAR) {
        said.increment = ahead - FAR;
        said.slots_code = CODE_FAR + (slots < FAR_BLOCK_MAX ? slots : FAR_BLOCK_MAX) - 1;
    }
    return said;
}

static void add_block(struct log_maker *maker, uint32_t source, uint32_t ahead, uint32_t slots)
{
    struct log_record record = maker_begin_at_once(RECORD_HEAR);
    struct spoken spoken = spoken_by(maker, source);
    spoken.said = block_at(ahead, slots);
    maker_speak(maker, ID_INCREMENTAL, &spoken, record.message);
    maker_end(maker, &record);
}

/* Stations announce blocks all over a window, in the first frames of its sets. Half of the time some slots are left
 * between them, and half of the time one station has all blocks. */
static void crowd(struct log_maker *maker, uint32_t k)
{
    uint32_t window_slots = second_window_slots(maker->beside.book.channel.plan);
    uint32_t first = (uint32_t)second_window_meant(&maker->beside.book, k);
    bool leaves_some = random_coin(&maker->random);
    bool alone = random_coin(&maker->random);
    uint32_t source = drawn_source(maker);
    for (uint32_t place = 0; place < window_slots;) {
        uint32_t frame = maker_drawn(maker, 0, FRAMES_CROWDED);
        uint32_t slots = maker_drawn(maker, 1, frame == FRAMES_CROWDED ? FAR_BLOCK_MAX : BLOCK_MAX);
        slots = slots < window_slots - place ? slots : window_slots - place;
        add_block(maker, source, first + place + SECOND_FRAME * frame, slots);
        source = alone ? source : drawn_source(maker);
        place += slots + (leaves_some ? maker_drawn(maker, 0, 3) / 2 : 0);
    }
}

/* A window that is crowded twice has sets with several marks. Mostly somebody chooses in it at once. */
void maker_add_crowd(struct log_maker *maker)
{
    if (!maker_has_plan(maker) || second_window_slots(maker->beside.book.channel.plan) > CROWDED_MAX) {
        maker_add_hear(maker);
        return;
    }
    maker->crowded = maker_drawn(maker, 0, maker_rate(maker) - 1);
    crowd(maker, maker->crowded);
    if (maker_chance(maker, 40)) {
        crowd(maker, maker->crowded);
    }
    if (maker_chance(maker, 75)) {
        maker_add_choice_at_once(maker, maker->crowded);
    }
}
