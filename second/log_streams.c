/* log_streams.c - event logs from buffers and files, lines of text to files. */
#include "log_streams.h"

#include <string.h>

static size_t smaller(size_t one, size_t other)
{
    return one < other ? one : other;
}

static size_t next_of_buffer(void *state, uint8_t *bytes, size_t room)
{
    struct log_buffer *buffer = state;
    size_t len = smaller(smaller(room, buffer->part), buffer->len);
    if (len == 0) {
        return 0;
    }
    memcpy(bytes, buffer->bytes, len);
    buffer->bytes += len;
    buffer->len -= len;
    return len;
}

struct log_reader log_from_buffer(struct log_buffer *buffer)
{
    return (struct log_reader){next_of_buffer, buffer};
}

static size_t next_of_file(void *state, uint8_t *bytes, size_t room)
{
    return fread(bytes, 1, room, state);
}

struct log_reader log_from_file(FILE *file)
{
    return (struct log_reader){next_of_file, file};
}

static void line_to_file(void *state, const char *line)
{
    fprintf(state, "%s\n", line);
}

struct line_sink lines_to_file(FILE *file)
{
    return (struct line_sink){line_to_file, file};
}

static void line_to_nowhere(void *state, const char *line)
{
    (void)state;
    (void)line;
}

struct line_sink lines_to_nowhere(void)
{
    return (struct line_sink){line_to_nowhere, NULL};
}
