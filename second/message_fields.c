/* message_fields.c - makes lists of numbers within their widths and past them, and gives them to be written. */
#include "message_fields.h"

#include "message_cases.h"

enum { PASSES = 10, SEVERAL = 50000, SEVERAL_MAX = 5, LIMIT_VALUES = 8 };

/* ---- lists of numbers ---- */

static bool is_within(struct second_field field, int32_t value)
{
    return value >= second_field_lowest(field) && value <= second_field_highest(field);
}

static bool is_time_out(const struct field_list *list, size_t place)
{
    int32_t id = list->fields[0];
    return id != ID_INCREMENTAL && place == second_state_place(id) + 1;
}

static void make_fields(struct random *random, int32_t id, int32_t time_out, struct field_list *list)
{
    list->count = second_message_layout(id, time_out, list->layout);
    list->fields[0] = id;
    for (size_t place = 1; place < list->count; place++) {
        struct second_field field = list->layout[place];
        list->fields[place] = random_number(random, second_field_lowest(field), second_field_highest(field));
    }
    for (size_t place = list->count; place < SECOND_FIELDS_MAX; place++) {
        list->fields[place] = random_number(random, INT32_MIN, INT32_MAX);
    }
    if (id != ID_INCREMENTAL) {
        list->fields[second_state_place(id) + 1] = time_out;
    }
}

void make_any_fields(struct random *random, struct field_list *list)
{
    int32_t id = random_number(random, ID_FIRST, IDS_END - 1);
    make_fields(random, id, random_number(random, 0, TIME_OUTS - 1), list);
}

static size_t any_place(struct random *random, const struct field_list *list)
{
    return random_from_to(random, 1, list->count - 1);
}

void spoil_field(struct random *random, struct field_list *list)
{
    size_t place = any_place(random, list);
    int64_t lowest = second_field_lowest(list->layout[place]), highest = second_field_highest(list->layout[place]);
    list->fields[place] = random_coin(random) ? random_number(random, INT32_MIN, lowest - 1)
                                              : random_number(random, highest + 1, INT32_MAX);
}

/* ---- given to be written ---- */

/* One of the values that tell whether the limits of a field are kept. */
static int32_t limit_value(struct random *random, struct second_field field, size_t which)
{
    int32_t lowest = second_field_lowest(field), highest = second_field_highest(field);
    int32_t within = random_number(random, lowest, highest);
    int32_t any = random_number(random, INT32_MIN, INT32_MAX);
    const int32_t values[LIMIT_VALUES] = {
        lowest, lowest - 1, highest, highest + 1, INT32_MIN, INT32_MAX, within, any,
    };
    return values[which];
}

/* Another time-out is put only where it is none: the numbers that follow belong to the one that stands there. */
static void put_limit_value(struct random *random, struct field_list *list, size_t place, size_t which)
{
    int32_t value = limit_value(random, list->layout[place], which);
    if (!is_time_out(list, place) || !is_within(list->layout[place], value)) {
        list->fields[place] = value;
    }
}

static void give_list(struct stream *stream, enum message_group group, const struct field_list *list)
{
    uint32_t expected = DONE;
    for (size_t place = 1; place < list->count; place++) {
        if (!is_within(list->layout[place], list->fields[place])) {
            expected = REFUSAL_WIDTH;
        }
    }
    give_message_write(stream, group, expected, list->fields, SECOND_FIELDS_MAX, SECOND_MESSAGE_BYTES);
}

static void one_field(struct stream *stream, int32_t id, int32_t time_out)
{
    struct field_list list;
    size_t count = second_message_layout(id, time_out, list.layout);
    for (size_t place = 1; place < count; place++) {
        for (size_t which = 0; which < LIMIT_VALUES; which++) {
            make_fields(&stream->random, id, time_out, &list);
            put_limit_value(&stream->random, &list, place, which);
            give_list(stream, MESSAGES_ONE_FIELD, &list);
        }
    }
}

static void several_fields(struct stream *stream)
{
    struct random *random = &stream->random;
    struct field_list list;
    make_any_fields(random, &list);
    for (size_t put = random_from_to(random, 2, SEVERAL_MAX); put > 0; put--) {
        size_t place = any_place(random, &list);
        put_limit_value(random, &list, place, random_below(random, LIMIT_VALUES));
    }
    give_list(stream, MESSAGES_SEVERAL_FIELDS, &list);
}

void give_fields(struct stream *stream)
{
    for (size_t pass = 0; pass < PASSES; pass++) {
        for (int32_t id = ID_FIRST; id < IDS_END; id++) {
            for (int32_t time_out = 0; time_out < TIME_OUTS; time_out++) {
                one_field(stream, id, time_out);
            }
        }
    }
    for (size_t i = 0; i < SEVERAL; i++) {
        several_fields(stream);
    }
}
