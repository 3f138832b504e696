/* The speed of messages 1 to 4, written and read: ours beside plain C, byte-wise C and the second program.
 *
 * Usage: bench_message MACHINE, where MACHINE is what the head line says about the machine, such as "native x86-64". */
#include "../include/quaysickle.h"
#include "../second/message.h"
#include "messages.h"
#include "timing.h"

#include <string.h>

static const struct {
    uint32_t (*write)(const int32_t *fields, size_t fields_len, uint8_t *message, size_t message_len);
    uint32_t (*read)(const uint8_t *message, size_t message_len, int32_t *fields, size_t fields_len, uint32_t *count);
} functions[CANDIDATES] = {
    [OURS] = {qs_message_write, qs_message_read},
    [PLAIN] = {plain_message_write, plain_message_read},
    [FAST] = {bytewise_message_write, bytewise_message_read},
    [SECOND] = {second_message_write, second_message_read},
};

/* What is read, and what is written: the numbers of the same messages. */
static uint8_t messages[INPUTS][MESSAGE_BYTES];
static int32_t fields[INPUTS][MESSAGE_NUMBERS];

static void answer(int who, int call, const void *in, size_t in_len, struct answer *answer)
{
    if (call == WRITE)
        answer->number = functions[who].write(in, in_len, answer->lent.bytes, MESSAGE_BYTES);
    else
        answer->number = functions[who].read(in, in_len, answer->lent.numbers, MESSAGE_NUMBERS, &answer->count);
}

static uint32_t pass(int who, int call)
{
    uint8_t message[MESSAGE_BYTES];
    int32_t numbers[MESSAGE_NUMBERS];
    uint32_t refused = 0, count;

    for (unsigned i = 0; i < INPUTS; i++) {
        if (call == WRITE)
            refused |= functions[who].write(fields[i], MESSAGE_NUMBERS, message, sizeof message);
        else
            refused |= functions[who].read(messages[i], MESSAGE_BYTES, numbers, MESSAGE_NUMBERS, &count);
    }
    return refused;
}

static const struct contest contest = {
    .program = "bench_message",
    .title = "Messages 1 to 4",
    .inputs = "random messages, the four ids mixed",
    .names = {"ours", "plain C", "bytes C", "second"},
    .fast_ratio = "ours/bytes",
    .calls = {"message write", "message read"},
    .answer = answer,
    .pass = pass,
};

/* All bits are drawn, the id among 1 to 4: so every time-out occurs, and what comes next cannot be guessed. */
static void make_messages(void)
{
    for (unsigned i = 0; i < INPUTS; i++) {
        for (unsigned j = 0; j < MESSAGE_BYTES; j++)
            messages[i][j] = (uint8_t)next_number();
        messages[i][0] = (uint8_t)((1 + next_number() % 4) << 2 | (messages[i][0] & 3));
    }
}

/* Reads the numbers, with all programs agreeing on them, on the bytes that they are written to, on a message whose id
 * is drawn anew and on a list with one number drawn anew. */
static void make_fields(void)
{
    for (unsigned i = 0; i < INPUTS; i++) {
        struct answer read, written, changed;
        uint32_t place = next_number() % MESSAGE_NUMBERS, shift = next_number() % 32;

        all_answer(&contest, READ, messages[i], MESSAGE_BYTES, &read);
        memcpy(fields[i], read.lent.numbers, sizeof fields[i]);
        all_answer(&contest, WRITE, fields[i], MESSAGE_NUMBERS, &written);
        if (read.number != 0 || written.number != 0 || memcmp(written.lent.bytes, messages[i], MESSAGE_BYTES) != 0)
            give_up(&contest, i, "does not come back");
        written.lent.bytes[0] = (uint8_t)next_number();
        all_answer(&contest, READ, written.lent.bytes, MESSAGE_BYTES, &changed);
        read.lent.numbers[place] = (int32_t)(next_number() >> shift);
        all_answer(&contest, WRITE, read.lent.numbers, MESSAGE_NUMBERS, &changed);
    }
}

int main(int argc, char **argv)
{
    make_messages();
    make_fields();
    run_contest(&contest, argc > 1 ? argv[1] : NULL);
    return 0;
}
