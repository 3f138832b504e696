/* record_text.c - turns event logs into text and back. */
#include "record_text.h"

#include "lines.h"

#include <inttypes.h>
#include <stdlib.h>
#include <string.h>

/* Raw bytes are broken into lines that a page can hold. */
enum { RAW_BYTES = 40 };

#define COUNT_OF(list) (sizeof(list) / sizeof(list)[0])

/* ---- to text ---- */

/* Puts a word and then bytes in hex digits; the room is that of a line. */
static void put_digits(char *line, const char *word, const uint8_t *bytes, size_t len)
{
    int at = snprintf(line, SECOND_LINE_ROOM, "%s ", word);
    for (size_t i = 0; i < len; i++) {
        at += snprintf(line + at, SECOND_LINE_ROOM - (size_t)at, "%02x", bytes[i]);
    }
}

static void put_record(char *line, const struct log_record *record)
{
    char word[SECOND_LINE_ROOM];
    switch (record->kind) {
    case RECORD_HEAR:
        snprintf(word, sizeof word, "hear %" PRIu16, record->passes);
        put_digits(line, word, record->message, SECOND_MESSAGE_BYTES);
        break;
    case RECORD_CHOOSE:
        snprintf(line, SECOND_LINE_ROOM, "choose %" PRIu16 " %" PRIu8 " %" PRIu8 " %" PRIu16, record->passes, record->k,
                 record->time_out, record->draw);
        break;
    case RECORD_PLAN:
        snprintf(line, SECOND_LINE_ROOM, "plan %" PRIu16 " %" PRIu8 " %" PRIu16, record->passes, record->rate,
                 record->start);
        break;
    default:
        snprintf(line, SECOND_LINE_ROOM, "own %" PRIu16 " %" PRIu32 " %" PRId32 " %" PRId32, record->passes,
                 record->source, record->latitude, record->longitude);
        break;
    }
}

static void give_raw(const struct log_piece *piece, struct line_sink sink)
{
    char line[SECOND_LINE_ROOM];
    for (size_t from = 0; from < piece->len; from += RAW_BYTES) {
        size_t left = piece->len - from;
        put_digits(line, "raw", piece->bytes + from, left < RAW_BYTES ? left : RAW_BYTES);
        sink.take(sink.state, line);
    }
}

static void give_piece(const struct log_piece *piece, bool whole, struct line_sink sink)
{
    char line[SECOND_LINE_ROOM];
    struct log_record record;
    if (!whole || log_record_read(piece, &record) != DONE) {
        give_raw(piece, sink);
        return;
    }
    put_record(line, &record);
    sink.take(sink.state, line);
}

void log_to_text(const struct log_reader *reader, struct line_sink sink)
{
    struct log_piece piece;
    enum piece_kind kind = log_take(reader, &piece);
    while (kind != PIECE_NONE) {
        give_piece(&piece, kind == PIECE_WHOLE, sink);
        kind = log_take(reader, &piece);
    }
}

/* ---- from text ---- */

/* The words of a line, each ended. No line in order has more. */
struct words {
    char chars[SECOND_LINE_ROOM];
    const char *word[6];
    size_t count;
};

/* False where the line is too long or has too many words. */
static bool split(const char *line, struct words *words)
{
    size_t len = strcspn(line, "#\r\n");
    words->count = 0;
    if (len >= sizeof words->chars) {
        return false;
    }
    memcpy(words->chars, line, len);
    words->chars[len] = '\0';
    for (char *word = strtok(words->chars, " \t"); word != NULL; word = strtok(NULL, " \t")) {
        if (words->count == COUNT_OF(words->word)) {
            return false;
        }
        words->word[words->count++] = word;
    }
    return true;
}

/* Decimal digits, with a minus sign before them at most, and both limits included. A number too great for the library
 * comes as the greatest it has, which is out of range too. */
static bool parse_number(const char *word, long long lowest, long long highest, long long *number)
{
    const char *digits = word + (word[0] == '-');
    size_t count = strspn(digits, "0123456789");
    if (count == 0 || digits[count] != '\0') {
        return false;
    }
    *number = strtoll(word, NULL, 10);
    return *number >= lowest && *number <= highest;
}

static bool parse_digits(const char *word, uint8_t *bytes, size_t room, size_t *len)
{
    return word[strspn(word, "0123456789abcdefABCDEF")] == '\0' && parse_hex(word, bytes, room, len);
}

static bool parse_hear(const struct words *words, struct log_record *record)
{
    size_t len;
    record->kind = RECORD_HEAR;
    return parse_digits(words->word[2], record->message, SECOND_MESSAGE_BYTES, &len) && len == SECOND_MESSAGE_BYTES;
}

static bool parse_choose(const struct words *words, struct log_record *record)
{
    long long k, time_out, draw;
    if (!parse_number(words->word[2], 0, UINT8_MAX, &k) || !parse_number(words->word[3], 0, UINT8_MAX, &time_out)
        || !parse_number(words->word[4], 0, UINT16_MAX, &draw)) {
        return false;
    }
    record->kind = RECORD_CHOOSE;
    record->k = (uint8_t)k;
    record->time_out = (uint8_t)time_out;
    record->draw = (uint16_t)draw;
    return true;
}

static bool parse_plan(const struct words *words, struct log_record *record)
{
    long long rate, start;
    if (!parse_number(words->word[2], 0, UINT8_MAX, &rate) || !parse_number(words->word[3], 0, UINT16_MAX, &start)) {
        return false;
    }
    record->kind = RECORD_PLAN;
    record->rate = (uint8_t)rate;
    record->start = (uint16_t)start;
    return true;
}

static bool parse_own(const struct words *words, struct log_record *record)
{
    long long source, latitude, longitude;
    if (!parse_number(words->word[2], 0, UINT32_MAX, &source)
        || !parse_number(words->word[3], INT32_MIN, INT32_MAX, &latitude)
        || !parse_number(words->word[4], INT32_MIN, INT32_MAX, &longitude)) {
        return false;
    }
    record->kind = RECORD_OWN;
    record->source = (uint32_t)source;
    record->latitude = (int32_t)latitude;
    record->longitude = (int32_t)longitude;
    return true;
}

struct form {
    const char *word;
    size_t words;
    bool (*parse)(const struct words *words, struct log_record *record);
};

static const struct form forms[] = {
    {"hear", 3, parse_hear},
    {"choose", 5, parse_choose},
    {"plan", 4, parse_plan},
    {"own", 5, parse_own},
};

static bool parse_record(const struct words *words, struct log_record *record)
{
    long long passes;
    for (size_t i = 0; i < COUNT_OF(forms); i++) {
        if (strcmp(words->word[0], forms[i].word) != 0) {
            continue;
        }
        if (words->count != forms[i].words || !parse_number(words->word[1], 0, UINT16_MAX, &passes)) {
            return false;
        }
        record->passes = (uint16_t)passes;
        return forms[i].parse(words, record);
    }
    return false;
}

bool text_to_log(const char *line, uint8_t bytes[SECOND_LINE_BYTES], size_t *len)
{
    struct words words;
    struct log_record record;
    if (!split(line, &words)) {
        return false;
    }
    if (words.count == 0) {
        *len = 0;
        return true;
    }
    if (strcmp(words.word[0], "raw") == 0) {
        return words.count == 2 && parse_digits(words.word[1], bytes, SECOND_LINE_BYTES, len);
    }
    if (!parse_record(&words, &record)) {
        return false;
    }
    *len = log_record_write(&record, bytes);
    return true;
}
