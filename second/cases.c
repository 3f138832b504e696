/* cases.c - the groups of cases, and the stream of them: good packets, each of them damaged, packets made to be
 * refused, the longest packets, and the vectors. */
#include "cases.h"

#include "damage.h"
#include "faults.h"
#include "lines.h"
#include "refusals.h"
#include "stream.h"
#include "unstuffed.h"
#include "vectors.h"

#include <string.h>

enum { RANDOM_PAYLOADS = 100000 };

const char *const case_group_names[CASE_GROUPS] = {
    [CASES_SHORT] = "every payload of one and two bytes",
    [CASES_RANDOM] = "random payloads of 1 to 21 bytes",
    [CASES_FLIPPED] = "one bit flipped",
    [CASES_INSERTED] = "a bit inserted",
    [CASES_DROPPED] = "a bit dropped",
    [CASES_FLAG] = "a flag broken",
    [CASES_NO_BIT] = "a byte that is no bit",
    [CASES_CUT] = "cut short",
    [CASES_LENGTHS] = "wrong lengths, given or lent",
    [CASES_BORDERS] = "every length about the limits",
    [CASES_SIX_ONES] = "six ones in a row",
    [CASES_FIVE_ONES] = "five ones at the end",
    [CASES_TOO_FEW] = "fewer than 24 unstuffed bits",
    [CASES_NOT_WHOLE] = "unstuffed bits not of whole bytes",
    [CASES_TOO_MANY] = "more than 184 unstuffed bits",
    [CASES_CHECK] = "a wrong check in good stuffing",
    [CASES_ORDER] = "several faults at once",
    [CASES_LONGEST] = "every body of 184 bits with 36 stuffed",
    [CASES_VECTOR_PACKETS] = "vectors of packets.txt",
    [CASES_VECTOR_CHECKS] = "vectors of check-sequence.txt",
};

/* ---- good packets, and each damaged in every way ---- */

/* Enough room, and in one case of four more than enough. */
static size_t lend_enough(struct stream *stream, size_t needed)
{
    return random_below(&stream->random, 4) == 0 ? needed + random_below(&stream->random, 65) : needed;
}

static void give_payload(struct stream *stream, enum case_group group, const uint8_t *payload, size_t payload_len)
{
    uint8_t packet[PACKET_ROOM];
    size_t count = packet_of(payload, payload_len, packet);
    give_write(stream, group, DONE, payload, payload_len, lend_enough(stream, SECOND_PACKET_MAX));
    give_read(stream, group, DONE, packet, count, lend_enough(stream, SECOND_PAYLOAD_MAX));
    give_damaged(stream, payload, payload_len, packet, count);
}

static void short_payloads(struct stream *stream)
{
    for (unsigned value = 0; value < 0x100; value++) {
        const uint8_t payload[1] = {(uint8_t)value};
        give_payload(stream, CASES_SHORT, payload, 1);
    }
    for (unsigned value = 0; value < 0x10000; value++) {
        const uint8_t payload[2] = {(uint8_t)(value >> 8), (uint8_t)(value & 0xFF)};
        give_payload(stream, CASES_SHORT, payload, 2);
    }
}

static void random_payloads(struct stream *stream)
{
    for (size_t i = 0; i < RANDOM_PAYLOADS; i++) {
        uint8_t payload[SECOND_PAYLOAD_MAX];
        size_t payload_len = random_payload(&stream->random, payload);
        give_payload(stream, CASES_RANDOM, payload, payload_len);
    }
}

/* ---- the longest packets ---- */

static void give_longest(struct stream *stream, const uint8_t *plain)
{
    uint8_t frame[PLAIN_MAX / 8] = {0}, bits[PACKET_ROOM];
    for (size_t i = 0; i < PLAIN_MAX; i++) {
        frame[i / 8] |= (uint8_t)(plain[i] << i % 8);
    }
    uint16_t check = (uint16_t)(frame[SECOND_PAYLOAD_MAX] | frame[SECOND_PAYLOAD_MAX + 1] << 8);
    bool good = check == second_check(frame, SECOND_PAYLOAD_MAX);
    size_t count = packet_from_plain(plain, PLAIN_MAX, bits);
    give_packet(stream, CASES_LONGEST, good ? DONE : REFUSAL_CHECK, bits, count);
    if (good) {
        give_write(stream, CASES_LONGEST, DONE, frame, SECOND_PAYLOAD_MAX, SECOND_PACKET_MAX);
    }
}

/* 36 stuffed bits take 36 runs of five ones, which leaves 4 of the 184 bits to stand elsewhere: each a 0, alone or
 * with ones before it, or ones at the very end. Every way to place them is tried. */
static void longest(struct stream *stream, uint8_t *plain, size_t at, size_t runs, size_t others)
{
    if (runs == 0) {
        memset(plain + at, 1, others);
        give_longest(stream, plain);
    } else {
        memset(plain + at, 1, 5);
        longest(stream, plain, at + 5, runs - 1, others);
    }
    for (size_t taken = 1; taken <= others; taken++) {
        memset(plain + at, 1, taken - 1);
        plain[at + taken - 1] = 0;
        longest(stream, plain, at + taken, runs, others - taken);
    }
}

/* ---- the whole stream ---- */

void cases_run(const struct case_sink *sink)
{
    struct stream stream = {sink, {1371}};
    uint8_t plain[PLAIN_MAX];
    short_payloads(&stream);
    random_payloads(&stream);
    give_refusals(&stream);
    give_several_faults(&stream);
    longest(&stream, plain, 0, PLAIN_MAX / 5, PLAIN_MAX % 5);
}

/* ---- vectors ---- */

struct vector_stream {
    struct stream stream;
    enum case_group group;
    vector_parse *parse;
};

static void give_vector(struct vector_stream *vectors, const struct vector *vector)
{
    const struct case_sink *sink = vectors->stream.sink;
    const struct call_case write = {
        vectors->group, PACKET_WRITE, DONE, vector->payload, vector->payload_len, SECOND_PACKET_MAX, vector,
    };
    uint8_t bits[PACKET_ROOM];
    sink->run(sink->state, &write);
    give_packet(&vectors->stream, vectors->group, DONE, bits, packet_of(vector->payload, vector->payload_len, bits));
}

static bool give_line(void *state, const char *line)
{
    struct vector_stream *vectors = state;
    struct vector vector;
    if (!vectors->parse(line, &vector)) {
        return false;
    }
    give_vector(vectors, &vector);
    return true;
}

bool cases_run_vectors(const char *directory, const struct case_sink *sink)
{
    struct vector_stream packets = {{sink, {0}}, CASES_VECTOR_PACKETS, parse_packet_line};
    struct vector_stream checks = {{sink, {0}}, CASES_VECTOR_CHECKS, parse_check_line};
    bool packets_read = lines_each(directory, "packets.txt", give_line, &packets);
    bool checks_read = lines_each(directory, "check-sequence.txt", give_line, &checks);
    return packets_read && checks_read;
}
