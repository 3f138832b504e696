/* log_streams.h - where an event log comes from, and where lines of text go. */
#ifndef SECOND_LOG_STREAMS_H
#define SECOND_LOG_STREAMS_H

#include <stddef.h>
#include <stdint.h>
#include <stdio.h>

/* Gives up to `room` bytes of a log, the next ones; 0 only at its end. */
struct log_reader {
    size_t (*next)(void *state, uint8_t *bytes, size_t room);
    void *state;
};

/* Takes lines one after the other, each without its end. */
struct line_sink {
    void (*take)(void *state, const char *line);
    void *state;
};

/* A log that lies whole in a buffer. It is handed out in parts of this many bytes at most. */
struct log_buffer {
    const uint8_t *bytes;
    size_t len, part;
};

struct log_reader log_from_buffer(struct log_buffer *buffer);

/* The caller asks the file afterwards whether it failed. */
struct log_reader log_from_file(FILE *file);
struct line_sink lines_to_file(FILE *file);
struct line_sink lines_to_nowhere(void);

#endif
