/* message_cases.c - the groups of cases, and the stream of them: marked examples, random messages, messages that differ
 * in one bit, every id, fields and lengths about their limits, and the vectors. */
#include "message_cases.h"

#include "lines.h"
#include "message.h"
#include "message_fields.h"
#include "message_lengths.h"
#include "message_vectors.h"
#include "stream.h"

#include <string.h>

enum { RANDOM_MESSAGES = 100000, ID_BITS = 6, IDS = 64, LENT_TO = 30 };

const char *const message_group_names[MESSAGE_GROUPS] = {
    [MESSAGES_VECTORS] = "vectors of messages-1-4.txt",
    [MESSAGES_MARKED] = "longitude all ones, and its high bit only",
    [MESSAGES_RANDOM] = "random strings of 21 bytes",
    [MESSAGES_SINGLE_BITS] = "each single bit, one among zeros and zero among ones",
    [MESSAGES_IDS] = "every id of six bits, and ids that do not fit them",
    [MESSAGES_ONE_FIELD] = "one field at the limits of its width and past them",
    [MESSAGES_SEVERAL_FIELDS] = "several fields at the limits of their widths and past them",
    [MESSAGES_PAIRS] = "every pair of lengths up to 30, with and without another fault",
    [MESSAGES_BORDERS] = "every length about the limits",
};

static void set_bit(uint8_t *message, size_t i)
{
    message[i / 8] |= (uint8_t)(0x80 >> i % 8);
}

void put_id(uint8_t *message, size_t id)
{
    message[0] = (uint8_t)(id << 2 | (message[0] & 3));
}

/* ---- messages, read and written back ---- */

/* A message is read, and where its id is one of ours the numbers that it holds are written. */
static void give_message(struct stream *stream, enum message_group group, const uint8_t *message, size_t fields_len,
                         size_t message_len)
{
    struct field_list list;
    uint32_t count;
    unsigned id = message[0] >> 2;
    bool right = id >= ID_FIRST && id < IDS_END;
    uint32_t expected = right ? DONE : REFUSAL_ID;
    give_message_read(stream, group, fields_len < SECOND_FIELDS_MAX ? REFUSAL_ROOM : expected, message,
                      SECOND_MESSAGE_BYTES, fields_len);
    if (right) {
        make_any_fields(&stream->random, &list);
        second_message_read(message, SECOND_MESSAGE_BYTES, list.fields, SECOND_FIELDS_MAX, &count);
        give_message_write(stream, group, message_len < SECOND_MESSAGE_BYTES ? REFUSAL_ROOM : DONE, list.fields,
                           SECOND_FIELDS_MAX, message_len);
    }
}

/* Enough room, and in one case of eight any. */
static size_t lend(struct stream *stream, size_t needed)
{
    return random_below(&stream->random, 8) == 0 ? random_below(&stream->random, LENT_TO + 1) : needed;
}

/* Seven out of eight have an id of ours. */
static void random_messages(struct stream *stream)
{
    for (size_t i = 0; i < RANDOM_MESSAGES; i++) {
        uint8_t message[SECOND_MESSAGE_BYTES];
        fill_random(&stream->random, message, sizeof message);
        if (random_below(&stream->random, 8) > 0) {
            put_id(message, random_from_to(&stream->random, ID_FIRST, IDS_END - 1));
        }
        size_t fields_len = lend(stream, SECOND_FIELDS_MAX);
        give_message(stream, MESSAGES_RANDOM, message, fields_len, lend(stream, SECOND_MESSAGE_BYTES));
    }
}

static void single_bits(struct stream *stream, size_t id)
{
    for (size_t i = ID_BITS; i < 8 * SECOND_MESSAGE_BYTES; i++) {
        uint8_t message[SECOND_MESSAGE_BYTES] = {0};
        set_bit(message, i);
        for (size_t turn = 0; turn < 2; turn++) {
            put_id(message, id);
            give_message(stream, MESSAGES_SINGLE_BITS, message, SECOND_FIELDS_MAX, SECOND_MESSAGE_BYTES);
            for (size_t byte = 0; byte < sizeof message; byte++) {
                message[byte] ^= 0xFF;
            }
        }
    }
}

/* ---- ids ---- */

static void give_wrong_id(struct stream *stream, int32_t id)
{
    struct field_list list;
    make_any_fields(&stream->random, &list);
    if (random_coin(&stream->random)) {
        spoil_field(&stream->random, &list);
    }
    list.fields[0] = id;
    give_message_write(stream, MESSAGES_IDS, REFUSAL_ID, list.fields, SECOND_FIELDS_MAX, SECOND_MESSAGE_BYTES);
}

/* Among them ids that would pass for good ones if they were cut down to 6 bits or more. */
static void every_id(struct stream *stream)
{
    for (size_t id = 0; id < IDS; id++) {
        uint8_t message[SECOND_MESSAGE_BYTES];
        fill_random(&stream->random, message, sizeof message);
        put_id(message, id);
        give_message(stream, MESSAGES_IDS, message, SECOND_FIELDS_MAX, SECOND_MESSAGE_BYTES);
    }
    for (int32_t step = 0; step < 300; step++) {
        give_wrong_id(stream, -step);
        give_wrong_id(stream, IDS_END + step);
    }
    for (int32_t id = ID_FIRST; id < IDS_END; id++) {
        for (unsigned bits = ID_BITS; bits < 31; bits++) {
            give_wrong_id(stream, id + ((int32_t)1 << bits));
            give_wrong_id(stream, id - ((int32_t)1 << bits));
        }
        give_wrong_id(stream, INT32_MIN + id);
        give_wrong_id(stream, INT32_MAX - id);
    }
}

/* ---- marked examples and vectors ---- */

static void give_vector(struct stream *stream, enum message_group group, const struct message_vector *vector)
{
    const struct case_sink *sink = stream->sink;
    const struct call_case read = {
        group, MESSAGE_READ, DONE, vector->message, SECOND_MESSAGE_BYTES, SECOND_FIELDS_MAX, vector,
    };
    const struct call_case write = {
        group, MESSAGE_WRITE, DONE, vector->fields, SECOND_FIELDS_MAX, SECOND_MESSAGE_BYTES, vector,
    };
    sink->run(sink->state, &read);
    sink->run(sink->state, &write);
}

/* A message of zeros but for its longitude, whose first `ones` bits are ones: all 28, or the high bit only. The places
 * and values are written out here and not taken from the list of widths. */
static void give_longitude(struct stream *stream, size_t id, size_t ones, int32_t longitude)
{
    size_t first_bit = id == 4 ? 79 : 61, place = id == 4 ? 10 : 7;
    struct message_vector vector = {.count = id == 3 || id == 4 ? 19 : 18, .state = 0};
    put_id(vector.message, id);
    vector.fields[0] = (int32_t)id;
    for (size_t i = 0; i < ones; i++) {
        set_bit(vector.message, first_bit + i);
    }
    vector.fields[place] = longitude;
    give_vector(stream, MESSAGES_MARKED, &vector);
}

static bool give_line(void *state, const char *line)
{
    struct message_vector vector;
    if (!parse_message_line(line, &vector)) {
        return false;
    }
    give_vector(state, MESSAGES_VECTORS, &vector);
    return true;
}

bool message_cases_run_vectors(const char *directory, const struct case_sink *sink)
{
    struct stream stream = {sink, {0}};
    return lines_each(directory, "messages-1-4.txt", give_line, &stream);
}

/* ---- the whole stream ---- */

void message_cases_run(const struct case_sink *sink)
{
    struct stream stream = {sink, {1371}};
    random_messages(&stream);
    every_id(&stream);
    give_fields(&stream);
    give_message_lengths(&stream);
    for (size_t id = ID_FIRST; id < IDS_END; id++) {
        single_bits(&stream, id);
        give_longitude(&stream, id, 28, -1);
        give_longitude(&stream, id, 1, -134217728);
    }
}
