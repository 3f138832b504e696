/* vectors.c - reads the published vectors and holds packets against them. */
#include "vectors.h"

#include "lines.h"

#include <stdio.h>
#include <stdlib.h>
#include <string.h>

enum { FIELD_ROOM = 64 };

uint16_t turn_check(uint16_t check)
{
    uint16_t turned = 0;
    for (unsigned i = 0; i < 16; i++) {
        turned = (uint16_t)(turned << 1 | (check >> i & 1));
    }
    return turned;
}

static bool parse_payload(const char *hex, struct vector *vector)
{
    return parse_hex(hex, vector->payload, sizeof vector->payload, &vector->payload_len);
}

static bool parse_number(const char *field, int base, long *number)
{
    char *end = NULL;
    if (strcmp(field, "-") == 0) {
        *number = VECTOR_UNKNOWN;
        return true;
    }
    *number = strtol(field, &end, base);
    return *end == '\0' && *number >= 0 && *number <= 0xFFFF;
}

/* A line of packets.txt: payload : check bits in sending order : stuffed bits : packet bits in all. */
bool parse_packet_line(const char *line, struct vector *vector)
{
    char payload[FIELD_ROOM], check[FIELD_ROOM], stuffed[FIELD_ROOM], total[FIELD_ROOM], more[2];
    int fields = sscanf(line, " %63[0-9a-fA-F] : %63s : %63s : %63s %1s", payload, check, stuffed, total, more);
    return fields == 4 && parse_payload(payload, vector) && parse_number(check, 16, &vector->check_as_sent)
        && parse_number(stuffed, 10, &vector->stuffed_bits) && parse_number(total, 10, &vector->packet_bits);
}

/* A line of check-sequence.txt: payload : check in the form of CRC-16/X-25. */
bool parse_check_line(const char *line, struct vector *vector)
{
    char payload[FIELD_ROOM], check[FIELD_ROOM], more[2];
    int fields = sscanf(line, " %63[0-9a-fA-F] : %63[0-9a-fA-F] %1s", payload, check, more);
    long number = VECTOR_UNKNOWN;
    if (fields != 2 || !parse_payload(payload, vector) || !parse_number(check, 16, &number)) {
        return false;
    }
    vector->check_as_sent = turn_check((uint16_t)number);
    vector->stuffed_bits = VECTOR_UNKNOWN;
    vector->packet_bits = VECTOR_UNKNOWN;
    return true;
}

/* The last sixteen bits before the closing flag once the stuffing is out, the first sent being the highest; and how
 * many stuffed bits there were. */
static uint16_t last_sixteen(const uint8_t *bits, size_t count, long *stuffed)
{
    uint16_t last = 0;
    unsigned ones = 0;
    *stuffed = 0;
    for (size_t i = 8; i < count - 8; i++) {
        if (ones == 5) {
            *stuffed += 1;
            ones = 0;
        } else {
            last = (uint16_t)(last << 1 | bits[i]);
            ones = bits[i] == 1 ? ones + 1 : 0;
        }
    }
    return last;
}

const char *vector_fault(const struct vector *vector, const uint8_t *bits, size_t count)
{
    long stuffed = 0;
    uint16_t check_as_sent = last_sixteen(bits, count, &stuffed);
    if (vector->check_as_sent != VECTOR_UNKNOWN && vector->check_as_sent != check_as_sent) {
        return "the check differs from the vector";
    }
    if (vector->stuffed_bits != VECTOR_UNKNOWN && vector->stuffed_bits != stuffed) {
        return "the stuffed bits differ from the vector";
    }
    if (vector->packet_bits != VECTOR_UNKNOWN && vector->packet_bits != (long)count) {
        return "the packet bits in all differ from the vector";
    }
    return NULL;
}
