/* log_case.h - what the tests of the event log share: logs put together by hand, and the lines that they give. */
#ifndef SECOND_LOG_CASE_H
#define SECOND_LOG_CASE_H

#include "book_case.h"
#include "logs.h"

/* All lines of a run, each with its end. What does not fit is left out. */
struct written {
    char chars[4000000];
    size_t len;
};

void written_new(struct written *written);
struct line_sink lines_to_written(struct written *written);
bool written_same(const struct written *one, const struct written *other);

/* Runs a log that is handed out in parts of at most so many bytes. */
void run_in_parts(const uint8_t *bytes, size_t len, size_t part, struct written *written);

/* The text of a log, and whether two logs have the same bytes. */
void log_as_text(const struct log *log, struct written *text);
bool log_same(const struct log *one, const struct log *other);

/* Puts bytes at the end of a log: hex digits with blanks between them, or records as text, or a message. */
void put_hex(struct log *log, const char *hex);
void put_text(struct log *log, const char *lines);
void put_hear(struct log *log, uint16_t passes, uint32_t id, const struct spoken *spoken);

/* Messages of a source with nothing else in them: 1, with the self-organised state, and 3, with the incremental one. */
void put_self_organised(struct log *log, uint16_t passes, uint32_t source, uint32_t time_out, uint32_t offset);
void put_incremental(struct log *log, uint32_t source, uint32_t increment, uint32_t slots_code, uint32_t keep);

/* The lines of the log are to be these, each with its end. */
void check_lines(struct check *check, const struct log *log, const char *expected, const char *what);

/* The same for a log in hex digits, and for one in text. */
void check_hex(struct check *check, const char *hex, const char *expected, const char *what);
void check_text(struct check *check, const char *text, const char *expected, const char *what);

#endif
