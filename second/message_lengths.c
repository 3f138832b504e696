/* message_lengths.c - makes lengths about every limit, with and without something else to be refused. */
#include "message_lengths.h"

#include "message_cases.h"
#include "message_fields.h"

#include <string.h>

enum { PAIRS_TO = 30 };

/* Both give what would get the number `content` if it had its right lengths. Where the id is wrong a field may be wrong
 * as well: the id comes first. */
static void give_write_of(struct stream *stream, enum message_group group, uint32_t content, size_t fields_len,
                          size_t message_len)
{
    static int32_t fields[CASE_LENGTH_MAX];
    struct field_list list;
    uint32_t expected = fields_len < SECOND_FIELDS_MAX ? REFUSAL_MESSAGE_LENGTH : content;
    make_any_fields(&stream->random, &list);
    if (content == REFUSAL_WIDTH || (content == REFUSAL_ID && random_coin(&stream->random))) {
        spoil_field(&stream->random, &list);
    }
    if (content == REFUSAL_ID) {
        list.fields[0] = random_number(&stream->random, IDS_END, INT32_MAX);
    }
    memcpy(fields, list.fields, sizeof list.fields);
    give_message_write(stream, group, message_len < SECOND_MESSAGE_BYTES ? REFUSAL_ROOM : expected, fields, fields_len,
                       message_len);
}

static void give_read_of(struct stream *stream, enum message_group group, uint32_t content, size_t message_len,
                         size_t fields_len)
{
    static uint8_t message[CASE_LENGTH_MAX];
    uint32_t expected = message_len != SECOND_MESSAGE_BYTES ? REFUSAL_MESSAGE_LENGTH : content;
    size_t id = content == REFUSAL_ID ? 0 : random_from_to(&stream->random, ID_FIRST, IDS_END - 1);
    fill_random(&stream->random, message, SECOND_MESSAGE_BYTES);
    put_id(message, id);
    give_message_read(stream, group, fields_len < SECOND_FIELDS_MAX ? REFUSAL_ROOM : expected, message, message_len,
                      fields_len);
}

static void pair_of_lengths(struct stream *stream, size_t message_len, size_t fields_len)
{
    give_write_of(stream, MESSAGES_PAIRS, DONE, fields_len, message_len);
    give_write_of(stream, MESSAGES_PAIRS, REFUSAL_ID, fields_len, message_len);
    give_write_of(stream, MESSAGES_PAIRS, REFUSAL_WIDTH, fields_len, message_len);
    give_read_of(stream, MESSAGES_PAIRS, DONE, message_len, fields_len);
    give_read_of(stream, MESSAGES_PAIRS, REFUSAL_ID, message_len, fields_len);
}

void give_message_lengths(struct stream *stream)
{
    for (size_t message_len = 0; message_len <= PAIRS_TO; message_len++) {
        for (size_t fields_len = 0; fields_len <= PAIRS_TO; fields_len++) {
            pair_of_lengths(stream, message_len, fields_len);
        }
    }
    for (size_t len = 0; len <= CASE_LENGTH_MAX; len = next_length(len)) {
        give_write_of(stream, MESSAGES_BORDERS, DONE, len, SECOND_MESSAGE_BYTES);
        give_write_of(stream, MESSAGES_BORDERS, DONE, SECOND_FIELDS_MAX, len);
        give_read_of(stream, MESSAGES_BORDERS, DONE, len, SECOND_FIELDS_MAX);
        give_read_of(stream, MESSAGES_BORDERS, DONE, SECOND_MESSAGE_BYTES, len);
    }
}
