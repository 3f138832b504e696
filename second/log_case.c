/* log_case.c - logs put together by hand, and the lines that they give. */
#include "log_case.h"

#include "journal.h"
#include "record_text.h"

#include <string.h>

/* ---- lines ---- */

void written_new(struct written *written)
{
    written->len = 0;
    written->chars[0] = '\0';
}

static void take_line(void *state, const char *line)
{
    struct written *written = state;
    size_t len = strlen(line);
    if (written->len + len + 2 > sizeof written->chars) {
        return;
    }
    memcpy(written->chars + written->len, line, len);
    memcpy(written->chars + written->len + len, "\n", 2);
    written->len += len + 1;
}

struct line_sink lines_to_written(struct written *written)
{
    return (struct line_sink){take_line, written};
}

bool written_same(const struct written *one, const struct written *other)
{
    return one->len == other->len && memcmp(one->chars, other->chars, one->len) == 0;
}

void run_in_parts(const uint8_t *bytes, size_t len, size_t part, struct written *written)
{
    static struct journal journal;
    struct log_buffer buffer = {bytes, len, part};
    const struct log_reader reader = log_from_buffer(&buffer);
    written_new(written);
    journal_new(&journal, lines_to_written(written));
    journal_run(&journal, &reader);
}

void log_as_text(const struct log *log, struct written *text)
{
    struct log_buffer buffer = {log->bytes, log->len, SIZE_MAX};
    const struct log_reader reader = log_from_buffer(&buffer);
    written_new(text);
    log_to_text(&reader, lines_to_written(text));
}

bool log_same(const struct log *one, const struct log *other)
{
    return one->len == other->len && memcmp(one->bytes, other->bytes, one->len) == 0;
}

/* ---- logs by hand ---- */

static uint8_t digit_of(char digit)
{
    static const char digits[] = "0123456789ABCDEF";
    return (uint8_t)(strchr(digits, digit) - digits);
}

void put_hex(struct log *log, const char *hex)
{
    for (; *hex != '\0'; hex++) {
        if (*hex == ' ') {
            continue;
        }
        uint8_t byte = (uint8_t)(digit_of(hex[0]) << 4 | digit_of(hex[1]));
        log_add(log, &byte, 1);
        hex++;
    }
}

/* A line that cannot be understood puts one byte in, which ends every log inside a record. */
void put_text(struct log *log, const char *lines)
{
    uint8_t bytes[SECOND_LINE_BYTES];
    while (*lines != '\0') {
        size_t len = 1, chars = strcspn(lines, "\n");
        bytes[0] = 0;
        text_to_log(lines, bytes, &len);
        log_add(log, bytes, len);
        lines += chars + (lines[chars] == '\n');
    }
}

void put_hear(struct log *log, uint16_t passes, uint32_t id, const struct spoken *spoken)
{
    struct log_record record = {.kind = RECORD_HEAR, .passes = passes};
    speak(id, spoken, record.message);
    log_add_record(log, &record);
}

void put_self_organised(struct log *log, uint16_t passes, uint32_t source, uint32_t time_out, uint32_t offset)
{
    const struct spoken spoken = {
        .source = source,
        .said = {.kind = SELF_ORGANISED, .time_out = time_out, .offset = offset},
    };
    put_hear(log, passes, 1, &spoken);
}

void put_incremental(struct log *log, uint32_t source, uint32_t increment, uint32_t slots_code, uint32_t keep)
{
    const struct spoken spoken = {
        .source = source,
        .said = {.kind = INCREMENTAL, .increment = increment, .slots_code = slots_code, .keep = keep},
    };
    put_hear(log, 0, ID_INCREMENTAL, &spoken);
}

/* ---- checks ---- */

void check_lines(struct check *check, const struct log *log, const char *expected, const char *what)
{
    static struct written written;
    run_in_parts(log->bytes, log->len, SIZE_MAX, &written);
    check_that(check, strcmp(written.chars, expected) == 0, what);
}

void check_hex(struct check *check, const char *hex, const char *expected, const char *what)
{
    static struct log log;
    log_new(&log);
    put_hex(&log, hex);
    check_lines(check, &log, expected, what);
}

void check_text(struct check *check, const char *text, const char *expected, const char *what)
{
    static struct log log;
    log_new(&log);
    put_text(&log, text);
    check_lines(check, &log, expected, what);
}
