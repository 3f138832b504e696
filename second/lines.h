/* lines.h - the lines of a vector file, and bytes that are written in them as hex digits. */
#ifndef SECOND_LINES_H
#define SECOND_LINES_H

#include <stdbool.h>
#include <stddef.h>
#include <stdint.h>

/* Calls `use` for each line of a file in the directory, except for blank lines and remarks. False where the file cannot
 * be read, or where `use` says so of a line. */
bool lines_each(const char *directory, const char *name, bool (*use)(void *state, const char *line), void *state);

/* The bytes that hex digits stand for. False where they are no whole bytes, or more than there is room for. */
bool parse_hex(const char *hex, uint8_t *bytes, size_t room, size_t *len);

#endif
