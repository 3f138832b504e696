/* record_text.h - event logs as text that can be read and written by hand, one record a line:
 *
 *     hear PASSES 42 hex digits
 *     choose PASSES K M D
 *     plan PASSES R S
 *     own PASSES SOURCE LATITUDE LONGITUDE
 *     raw hex digits
 *
 * Raw bytes are put into the log as they are: that is for all that is no record in order. A remark goes from a # to the
 * end of its line. Every log has a text, and from that comes the same log again. */
#ifndef SECOND_RECORD_TEXT_H
#define SECOND_RECORD_TEXT_H

#include "log_record.h"

/* The room for the longest line, with its end, and for the bytes of any line. */
#define SECOND_LINE_ROOM 1024
#define SECOND_LINE_BYTES (SECOND_LINE_ROOM / 2)

/* Gives the lines of a whole log. */
void log_to_text(const struct log_reader *reader, struct line_sink sink);

/* The bytes that a line stands for; none where it says nothing. False where it cannot be understood. */
bool text_to_log(const char *line, uint8_t bytes[SECOND_LINE_BYTES], size_t *len);

#endif
