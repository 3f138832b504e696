/* test_packet.c - the second program's own tests, without the product. Usage: test_packet VECTORS_DIR */
#include "cases.h"
#include "packet.h"
#include "random.h"
#include "report.h"
#include "run.h"
#include "vectors.h"

#include <stdio.h>
#include <string.h>

static const struct program second = {
    .name = "second",
    .packet_write = second_packet_write,
    .packet_read = second_packet_read,
};

/* ---- the stream of cases ---- */

/* What was written must read as the payload, and what was read must be written to the same bits. */
static const char *way_back_fault(const struct trial *trial, const struct call_case *one)
{
    uint8_t back[SECOND_PACKET_MAX];
    packet_call *call = case_writes(one) ? second_packet_read : second_packet_write;
    uint32_t count = 0;
    uint32_t number = call(trial_answer(trial), trial->count, back, sizeof back, &count);
    bool same = number == DONE && count == one->given_len && memcmp(back, one->given, count) == 0;
    return same ? NULL : "the way back leads elsewhere";
}

static const char *published_fault(const struct trial *trial, const struct vector *vector)
{
    uint16_t check_as_sent = turn_check(second_check(vector->payload, vector->payload_len));
    if (vector->check_as_sent != VECTOR_UNKNOWN && vector->check_as_sent != check_as_sent) {
        return "the check value differs from the vector";
    }
    return vector_fault(vector, trial_answer(trial), trial->count);
}

static const char *packet_fault(const struct run *run, const struct call_case *one)
{
    const char *fault = run->trial.number == DONE ? way_back_fault(&run->trial, one) : NULL;
    if (fault == NULL && one->published != NULL) {
        fault = published_fault(&run->trial, one->published);
    }
    return fault;
}

static void note_longest(void *notes, const struct trial *trial, const struct call_case *one)
{
    unsigned long *longest_accepted = notes;
    *longest_accepted += one->group == CASES_LONGEST && !case_writes(one) && trial->number == DONE;
}

static void test_cases(struct report *report, const char *directory)
{
    static struct group_result groups[CASE_GROUPS];
    static unsigned long longest_accepted;
    static struct run run = {
        .tested = &second,
        .own_fault = packet_fault,
        .note = note_longest,
        .notes = &longest_accepted,
        .groups = groups,
    };
    const struct case_sink sink = {run_case, &run};
    struct text line = {.len = 0}, longest = {.len = 0};
    cases_run(&sink);
    bool vectors_read = cases_run_vectors(directory, &sink);
    report_groups(report, groups, case_group_names, CASE_GROUPS);
    text_add(&line, "every line of the vector files was read");
    report_line(report, vectors_read, &line);
    text_add(&longest, "packets of 236 bits: %lu, and packets.txt says two", longest_accepted);
    report_line(report, longest_accepted == 2, &longest);
}

/* ---- the check sequence, divided on paper ---- */

enum { DIVISION_ROOM = 8 * SECOND_PAYLOAD_MAX + 16 + 16 };

/* Takes x^16 + x^12 + x^5 + 1 once away from the bits that stand above it. */
static void subtract(uint8_t *bits)
{
    static const uint8_t divisor[17] = {1, 0, 0, 0, 1, 0, 0, 0, 0, 0, 0, 1, 0, 0, 0, 0, 1};
    for (size_t i = 0; i < sizeof divisor; i++) {
        bits[i] ^= divisor[i];
    }
}

/* The remainder of a row of bits with sixteen zeros after them. To preset the register to all ones is to complement
 * the first sixteen of the row. */
static uint16_t divide(const uint8_t *dividend, size_t len)
{
    uint8_t bits[DIVISION_ROOM] = {0};
    uint16_t remainder = 0;
    memcpy(bits, dividend, len);
    for (size_t i = 0; i < 16; i++) {
        bits[i] ^= 1;
    }
    for (size_t i = 0; i < len; i++) {
        if (bits[i] == 1) {
            subtract(bits + i);
        }
    }
    for (size_t i = len; i < len + 16; i++) {
        remainder = (uint16_t)(remainder << 1 | bits[i]);
    }
    return remainder;
}

static size_t bits_as_sent(const uint8_t *bytes, size_t len, uint8_t *bits)
{
    for (size_t i = 0; i < 8 * len; i++) {
        bits[i] = bytes[i / 8] >> i % 8 & 1;
    }
    return 8 * len;
}

static bool division_agrees(const uint8_t *payload, size_t payload_len)
{
    uint8_t bits[DIVISION_ROOM];
    size_t len = bits_as_sent(payload, payload_len, bits);
    uint16_t check_as_sent = (uint16_t)~divide(bits, len);
    return check_as_sent == turn_check(second_check(payload, payload_len));
}

/* A good payload with its complemented check always leaves 0x1D0F. */
static bool remainder_agrees(const uint8_t *payload, size_t payload_len)
{
    uint8_t frame[SECOND_PAYLOAD_MAX + 2], bits[DIVISION_ROOM];
    uint16_t check = second_check(payload, payload_len);
    memcpy(frame, payload, payload_len);
    frame[payload_len] = (uint8_t)(check & 0xFF);
    frame[payload_len + 1] = (uint8_t)(check >> 8);
    return divide(bits, bits_as_sent(frame, payload_len + 2, bits)) == 0x1D0F;
}

struct check_test {
    unsigned long tried;
    unsigned long wrong_check;
    unsigned long wrong_remainder;
};

static void try_check(struct check_test *test, const uint8_t *payload, size_t payload_len)
{
    test->tried++;
    test->wrong_check += !division_agrees(payload, payload_len);
    test->wrong_remainder += !remainder_agrees(payload, payload_len);
}

static void report_check(struct report *report, const char *name, unsigned long tried, unsigned long wrong)
{
    struct text line = {.len = 0};
    text_add(&line, "%s: ", name);
    text_add_count(&line, tried);
    text_add(&line, " payloads, ");
    text_add_count(&line, wrong);
    text_add(&line, " wrong");
    report_line(report, wrong == 0, &line);
}

static void test_check(struct report *report)
{
    struct check_test test = {0, 0, 0};
    struct random random = {32};
    uint8_t payload[SECOND_PAYLOAD_MAX];
    for (unsigned value = 0; value < 0x10000; value++) {
        payload[0] = (uint8_t)(value & 0xFF);
        payload[1] = (uint8_t)(value >> 8);
        try_check(&test, payload, 2);
        if (value < 0x100) {
            try_check(&test, payload, 1);
        }
    }
    for (size_t i = 0; i < 20000; i++) {
        try_check(&test, payload, random_payload(&random, payload));
    }
    report_check(report, "check as divided on paper", test.tried, test.wrong_check);
    report_check(report, "payload and check leave 0x1D0F", test.tried, test.wrong_remainder);
}

/* ---- every single bit flipped ---- */

/* Indexed by the number given back; one out of the table counts as an acceptance, being as wrong. */
struct flip_test {
    unsigned long packets;
    unsigned long numbers[REFUSAL_CHECK + 1];
};

static void flip_each_bit(struct flip_test *test, const uint8_t *payload, size_t payload_len)
{
    uint8_t bits[SECOND_PACKET_MAX], read[SECOND_PAYLOAD_MAX];
    uint32_t count = 0, read_count = 0;
    second_packet_write(payload, payload_len, bits, sizeof bits, &count);
    test->packets++;
    for (size_t i = 0; i < count; i++) {
        bits[i] ^= 1;
        uint32_t number = second_packet_read(bits, count, read, sizeof read, &read_count);
        test->numbers[number <= REFUSAL_CHECK ? number : DONE]++;
        bits[i] ^= 1;
    }
}

static void test_flips(struct report *report)
{
    struct flip_test test = {0, {0}};
    struct random random = {1371};
    struct text line = {.len = 0};
    for (size_t i = 0; i < 2000; i++) {
        uint8_t payload[SECOND_PAYLOAD_MAX];
        size_t payload_len = random_payload(&random, payload);
        flip_each_bit(&test, payload, payload_len);
    }
    text_add(&line, "every single bit flipped in ");
    text_add_count(&line, test.packets);
    text_add(&line, " packets: ");
    text_add_count(&line, test.numbers[DONE]);
    text_add(&line, " accepted");
    for (unsigned number = REFUSAL_NO_BIT; number <= REFUSAL_CHECK; number++) {
        if (test.numbers[number] > 0) {
            text_add(&line, ", ");
            text_add_count(&line, test.numbers[number]);
            text_add(&line, " refused with %u", number);
        }
    }
    report_line(report, test.numbers[DONE] == 0, &line);
}

int main(int argc, char **argv)
{
    struct report report = {0, 0};
    if (argc != 2) {
        fprintf(stderr, "usage: test_packet VECTORS_DIR\n");
        return 2;
    }
    test_cases(&report, argv[1]);
    test_check(&report);
    test_flips(&report);
    return report_end(&report);
}
