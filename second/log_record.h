/* log_record.h - the records of an event log: the second program's reader and writer of them.
 * They are written from the documents (document 01, "Event log"), not from the product. */
#ifndef SECOND_LOG_RECORD_H
#define SECOND_LOG_RECORD_H

#include "log_streams.h"
#include "message.h"

/* The two bytes of a length, the most that such a length can count, and the bytes of the longest record in order. */
#define SECOND_LENGTH_BYTES 2
#define SECOND_COUNTED_MAX 65535
#define SECOND_RECORD_MAX 27

enum record_kind { RECORD_HEAR = 1, RECORD_CHOOSE, RECORD_PLAN, RECORD_OWN, RECORD_KINDS_END };

/* A record in order. Of each kind only its own numbers are looked at. */
struct log_record {
    uint32_t kind;
    uint16_t passes;
    uint8_t message[SECOND_MESSAGE_BYTES]; /* hear */
    uint8_t k, time_out;                   /* choose */
    uint16_t draw;
    uint8_t rate; /* plan */
    uint16_t start;
    uint32_t source; /* own */
    int32_t latitude, longitude;
};

/* The bytes of one record, its length included; or, at the end of a log, of as much of one as is left. */
struct log_piece {
    uint8_t bytes[SECOND_LENGTH_BYTES + SECOND_COUNTED_MAX];
    size_t len;
};

enum piece_kind { PIECE_WHOLE, PIECE_CUT, PIECE_NONE };

/* Takes the next record off a log: a whole one, or a cut one, or there is none left. */
enum piece_kind log_take(const struct log_reader *reader, struct log_piece *piece);

/* Reads a whole record. Returns 41 where its length is under 2 or wrong for its kind, or its kind unknown. */
uint32_t log_record_read(const struct log_piece *piece, struct log_record *record);

/* What the length of a record of a known kind has to be. */
size_t log_record_length(uint32_t kind);

/* Writes a record of a known kind; returns how many bytes it has. */
size_t log_record_write(const struct log_record *record, uint8_t bytes[SECOND_RECORD_MAX]);

#endif
