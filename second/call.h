/* call.h - one call to a program: which function, on what, and the number that it is to give back. */
#ifndef SECOND_CALL_H
#define SECOND_CALL_H

#include <stdbool.h>
#include <stddef.h>
#include <stdint.h>

enum call_kind { PACKET_WRITE, PACKET_READ, MESSAGE_WRITE, MESSAGE_READ, CALL_KINDS };

/* Writing and reading packets have one form: what is given, what is lent, and the count. */
typedef uint32_t packet_call(const uint8_t *given, size_t given_len, uint8_t *lent, size_t lent_len, uint32_t *count);
typedef uint32_t message_write_call(const int32_t *fields, size_t fields_len, uint8_t *message, size_t message_len);
typedef uint32_t message_read_call(const uint8_t *message, size_t message_len, int32_t *fields, size_t fields_len,
                                   uint32_t *count);

/* The functions of the product or of the second program, as far as they are called. */
struct program {
    const char *name;
    packet_call *packet_write;
    packet_call *packet_read;
    message_write_call *message_write;
    message_read_call *message_read;
};

/* Past 65,536, so that a length cut down to 8 or 16 bits is found out. */
enum { CASE_LENGTH_MAX = 65536 + 300 };

/* What `expected` holds where the way a case is made does not tell its number. */
enum { EXPECT_ANY = 1000, EXPECT_REFUSAL = 1001 };

/* What is given are numbers where a message is written, what is lent where one is read; all else are bytes. */
struct call_case {
    unsigned group; /* of the groups of packets, or of messages */
    enum call_kind kind;
    uint32_t expected;
    const void *given;
    size_t given_len;
    size_t lent_len;
    const void *published; /* the vector that the answer is held against; NULL where there is none */
};

bool case_writes(const struct call_case *one);

struct case_sink {
    void (*run)(void *state, const struct call_case *one);
    void *state;
};

#endif
