/* lines.c - goes through the lines of a vector file. */
#include "lines.h"

#include <stdio.h>
#include <stdlib.h>
#include <string.h>

enum { LINE_ROOM = 400, PATH_ROOM = 4096 };

static bool says_nothing(const char *line)
{
    size_t blank = strspn(line, " \t\r\n");
    return line[blank] == '#' || line[blank] == '\0';
}

static bool read_lines(FILE *open, bool (*use)(void *state, const char *line), void *state)
{
    char line[LINE_ROOM];
    bool good = true;
    while (fgets(line, sizeof line, open) != NULL) {
        if (!says_nothing(line) && !use(state, line)) {
            good = false;
        }
    }
    return good && ferror(open) == 0;
}

bool lines_each(const char *directory, const char *name, bool (*use)(void *state, const char *line), void *state)
{
    char path[PATH_ROOM];
    int length = snprintf(path, sizeof path, "%s/%s", directory, name);
    FILE *open = length > 0 && length < PATH_ROOM ? fopen(path, "r") : NULL;
    if (open == NULL) {
        return false;
    }
    bool good = read_lines(open, use, state);
    fclose(open);
    return good;
}

bool parse_hex(const char *hex, uint8_t *bytes, size_t room, size_t *len)
{
    size_t digits = strlen(hex);
    if (digits % 2 != 0 || digits > 2 * room) {
        return false;
    }
    for (size_t i = 0; i < digits / 2; i++) {
        const char pair[3] = {hex[2 * i], hex[2 * i + 1], '\0'};
        bytes[i] = (uint8_t)strtoul(pair, NULL, 16);
    }
    *len = digits / 2;
    return true;
}
