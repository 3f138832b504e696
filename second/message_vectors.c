/* message_vectors.c - reads the published vectors of messages and holds answers against them. */
#include "message_vectors.h"

#include "lines.h"

#include <stdio.h>
#include <stdlib.h>
#include <string.h>

enum { HEX_ROOM = 64 };

/* What the sub-message is called, by the time-out. */
static const char *const sub_message_names[8] = {
    "offset", "utc", "slot", "stations", "slot", "stations", "slot", "stations",
};

/* A line as far as it is read. */
struct cursor {
    const char *rest;
};

static bool take_word(struct cursor *line, const char *word)
{
    const char *start = line->rest + strspn(line->rest, " ");
    size_t len = strlen(word);
    if (strncmp(start, word, len) != 0) {
        return false;
    }
    line->rest = start + len;
    return true;
}

static bool take_numbers(struct cursor *line, int32_t *numbers, size_t count)
{
    for (size_t i = 0; i < count; i++) {
        char *end = NULL;
        numbers[i] = (int32_t)strtol(line->rest, &end, 10);
        if (end == line->rest) {
            return false;
        }
        line->rest = end;
    }
    return true;
}

/* Takes a name and the numbers after it, which are the next ones of the vector. */
static bool take_part(struct cursor *line, const char *name, struct message_vector *vector, size_t count)
{
    int32_t *numbers = vector->fields + vector->count;
    vector->count += count;
    return take_word(line, name) && take_numbers(line, numbers, count);
}

static bool take_message(struct cursor *line, struct message_vector *vector)
{
    char hex[HEX_ROOM];
    int end = 0;
    size_t len = 0;
    if (sscanf(line->rest, " %63[0-9a-fA-F]%n", hex, &end) != 1) {
        return false;
    }
    line->rest += end;
    return parse_hex(hex, vector->message, sizeof vector->message, &len) && len == sizeof vector->message;
}

/* The id tells how many fields are to follow it. */
static bool take_fields(struct cursor *line, struct message_vector *vector)
{
    if (!take_numbers(line, vector->fields, 1)) {
        return false;
    }
    vector->count = second_state_place(vector->fields[0]);
    return take_numbers(line, vector->fields + 1, vector->count - 1) && take_numbers(line, &vector->state, 1);
}

static bool take_incremental(struct cursor *line, struct message_vector *vector)
{
    return take_part(line, "sync", vector, 1) && take_part(line, "increment", vector, 1)
        && take_part(line, "slots", vector, 1) && take_part(line, "keep", vector, 1);
}

static bool take_self_organised(struct cursor *line, struct message_vector *vector)
{
    if (!take_part(line, "sync", vector, 1) || !take_part(line, "timeout", vector, 1)) {
        return false;
    }
    int32_t time_out = vector->fields[vector->count - 1];
    if (time_out < 0 || time_out > 7) {
        return false;
    }
    return take_part(line, sub_message_names[time_out], vector, time_out == 1 ? 3 : 1);
}

bool parse_message_line(const char *line, struct message_vector *vector)
{
    struct cursor cursor = {line};
    memset(vector, 0, sizeof *vector);
    if (!take_message(&cursor, vector) || !take_word(&cursor, ":") || !take_fields(&cursor, vector)
        || !take_word(&cursor, ":")) {
        return false;
    }
    bool incremental = vector->fields[0] == ID_INCREMENTAL;
    if (!(incremental ? take_incremental(&cursor, vector) : take_self_organised(&cursor, vector))) {
        return false;
    }
    return cursor.rest[strspn(cursor.rest, " \r\n")] == '\0';
}

const char *written_message_fault(const struct message_vector *vector, const uint8_t *message)
{
    bool same = memcmp(message, vector->message, sizeof vector->message) == 0;
    return same ? NULL : "the bytes differ from the vector";
}

/* The state put together again from its numbers by what each counts for: the sub-message of hour and minute is
 * hour * 512 + minute * 4 + unused. */
static int32_t state_of(const int32_t *fields, size_t count)
{
    const int32_t *state = fields + second_state_place(fields[0]);
    size_t parts = count - second_state_place(fields[0]);
    if (fields[0] == ID_INCREMENTAL) {
        return state[0] * 131072 + state[1] * 16 + state[2] * 2 + state[3];
    }
    int32_t sub_message = parts == 3 ? state[2] : state[2] * 512 + state[3] * 4 + state[4];
    return state[0] * 131072 + state[1] * 16384 + sub_message;
}

const char *read_message_fault(const struct message_vector *vector, const int32_t *fields, size_t count)
{
    if (count != vector->count || memcmp(fields, vector->fields, count * sizeof fields[0]) != 0) {
        return "the numbers differ from the vector";
    }
    return state_of(fields, count) == vector->state ? NULL : "the state put together differs from the vector";
}
