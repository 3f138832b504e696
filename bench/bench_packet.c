/* The speed of link packets, written and read: ours beside plain C, table-driven C and the second program.
 *
 * Usage: bench_packet MACHINE, where MACHINE is what the head line says about the machine, such as "native x86-64". */
#include "../include/quaysickle.h"
#include "../second/packet.h"
#include "packets.h"
#include "timing.h"

#include <string.h>

enum { PAYLOAD = QS_PAYLOAD_MAX };

/* Writing and reading take the same kinds of things: bytes in with their length, bytes out with theirs, a count. */
typedef uint32_t packet_call(const uint8_t *in, size_t in_len, uint8_t *out, size_t out_len, uint32_t *count);

static packet_call *const functions[CANDIDATES][CALLS] = {
    [OURS] = {qs_packet_write, qs_packet_read},
    [PLAIN] = {plain_packet_write, plain_packet_read},
    [FAST] = {table_packet_write, table_packet_read},
    [SECOND] = {second_packet_write, second_packet_read},
};

static uint8_t payloads[INPUTS][PAYLOAD];
static uint8_t packets[INPUTS][QS_PACKET_MAX];

/* What each call is given, one after the other. */
static struct {
    const uint8_t *bytes;
    size_t len;
} inputs[CALLS][INPUTS];

static void answer(int who, int call, const void *in, size_t in_len, struct answer *answer)
{
    uint8_t *out = answer->lent.bytes;

    answer->number = functions[who][call](in, in_len, out, sizeof answer->lent.bytes, &answer->count);
}

static uint32_t pass(int who, int call)
{
    packet_call *function = functions[who][call];
    uint8_t out[QS_PACKET_MAX];
    uint32_t refused = 0, count;

    for (unsigned i = 0; i < INPUTS; i++)
        refused |= function(inputs[call][i].bytes, inputs[call][i].len, out, sizeof out, &count);
    return refused;
}

static const struct contest contest = {
    .program = "bench_packet",
    .title = "Link packets",
    .inputs = "payloads of 21 bytes",
    .names = {"ours", "plain C", "table C", "second"},
    .fast_ratio = "ours/table",
    .calls = {"packet write", "packet read"},
    .answer = answer,
    .pass = pass,
};

/* Every fourth payload is rich in ones, three bits out of four, so that stuffing has its share. */
static void make_payloads(void)
{
    for (unsigned i = 0; i < INPUTS; i++) {
        for (unsigned j = 0; j < PAYLOAD; j++) {
            uint32_t number = next_number();

            payloads[i][j] = (uint8_t)(i % 4 == 0 ? number | number >> 8 : number);
        }
        inputs[WRITE][i].bytes = payloads[i];
        inputs[WRITE][i].len = PAYLOAD;
    }
}

/* Makes the packets, with all programs agreeing on them, on what they hold and on a damaged copy of each. */
static void make_packets(void)
{
    for (unsigned i = 0; i < INPUTS; i++) {
        struct answer written, read;

        all_answer(&contest, WRITE, payloads[i], PAYLOAD, &written);
        memcpy(packets[i], written.lent.bytes, written.count);
        inputs[READ][i].bytes = packets[i];
        inputs[READ][i].len = written.count;
        all_answer(&contest, READ, packets[i], written.count, &read);
        if (written.number != 0 || read.number != 0 || read.count != PAYLOAD ||
            memcmp(read.lent.bytes, payloads[i], PAYLOAD) != 0)
            give_up(&contest, i, "does not come back");
        written.lent.bytes[next_number() % written.count] ^= i % 8 == 0 ? 2 : 1;
        all_answer(&contest, READ, written.lent.bytes, written.count, &read);
    }
}

int main(int argc, char **argv)
{
    table_packet_start();
    make_payloads();
    make_packets();
    run_contest(&contest, argc > 1 ? argv[1] : NULL);
    return 0;
}
