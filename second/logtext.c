/* logtext.c - turns an event log into text and text into an event log, from standard input to standard output.
 * Usage: logtext to-text | logtext to-log */
#include "record_text.h"

#include <string.h>

enum { STATUS_FAILED = 1, STATUS_USAGE = 2 };

static bool is_whole(const char *line)
{
    return strchr(line, '\n') != NULL || feof(stdin) != 0;
}

static int lines_to_log(void)
{
    char line[SECOND_LINE_ROOM];
    uint8_t bytes[SECOND_LINE_BYTES];
    size_t len;
    for (unsigned long number = 1; fgets(line, sizeof line, stdin) != NULL; number++) {
        if (!is_whole(line) || !text_to_log(line, bytes, &len)) {
            fprintf(stderr, "logtext: line %lu cannot be understood: %.*s\n", number, (int)strcspn(line, "\r\n"), line);
            return STATUS_FAILED;
        }
        fwrite(bytes, 1, len, stdout);
    }
    return 0;
}

static int log_to_lines(void)
{
    const struct log_reader reader = log_from_file(stdin);
    log_to_text(&reader, lines_to_file(stdout));
    return 0;
}

static int failed(const char *what)
{
    fprintf(stderr, "logtext: standard %s failed\n", what);
    return STATUS_FAILED;
}

int main(int count, char **words)
{
    bool to_log = count == 2 && strcmp(words[1], "to-log") == 0;
    bool to_text = count == 2 && strcmp(words[1], "to-text") == 0;
    if (!to_log && !to_text) {
        fprintf(stderr, "usage: logtext to-text | logtext to-log\n");
        return STATUS_USAGE;
    }
    int status = to_log ? lines_to_log() : log_to_lines();
    if (ferror(stdin) != 0) {
        return failed("input");
    }
    if (fflush(stdout) != 0 || ferror(stdout) != 0) {
        return failed("output");
    }
    return status;
}
