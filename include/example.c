/* How a program uses quaysickle.h: each argument is a payload in hex; it is written as a link packet, the packet is read again, and both
 * are printed. A payload that is a message 1 to 4 is taken apart into its numbers, which are printed, and put together again. Ends with
 * status 1 where anything was refused or did not come back. */
#include "quaysickle.h"

#include <stdio.h>
#include <string.h>

/* The value of a hex digit, or -1. */
static int digit(char c) {
    const char *digits = "0123456789abcdef";
    const char *at = c == '\0' ? NULL : strchr(digits, c >= 'A' && c <= 'F' ? c - 'A' + 'a' : c);
    return at == NULL ? -1 : (int)(at - digits);
}

/* The bytes of a hex string, at most `room`; returns how many, or -1 where it is no such string. */
static int bytes_of(const char *hex, uint8_t *bytes, size_t room) {
    size_t n = 0;
    for (; hex[0] != '\0'; hex += 2, n++) {
        if (n == room || digit(hex[0]) < 0 || digit(hex[1]) < 0) {
            return -1;
        }
        bytes[n] = (uint8_t)(16 * digit(hex[0]) + digit(hex[1]));
    }
    return (int)n;
}

static int refused(const char *call, uint32_t number) {
    printf("%s refused %u\n", call, (unsigned)number);
    return 1;
}

/* A payload that is no message of ours is none of this function's business. */
static int message_there_and_back(const uint8_t *payload, size_t payload_len) {
    int32_t fields[QS_FIELDS_MAX];
    uint8_t message[QS_MESSAGE_BYTES];
    uint32_t field_count;

    if (qs_message_read(payload, payload_len, fields, QS_FIELDS_MAX, &field_count) != 0) {
        return 0;
    }
    printf("message %u numbers", (unsigned)field_count);
    for (uint32_t i = 0; i < field_count; i++) {
        printf(" %ld", (long)fields[i]);
    }
    putchar('\n');

    uint32_t number = qs_message_write(fields, QS_FIELDS_MAX, message, sizeof message);
    if (number != 0) {
        return refused("message write", number);
    }
    return memcmp(message, payload, sizeof message) == 0 ? 0 : 1;
}

static int packet_there_and_back(const uint8_t *sent, size_t sent_len) {
    uint8_t bits[QS_PACKET_MAX];
    uint8_t payload[QS_PAYLOAD_MAX];
    uint32_t bit_count;
    uint32_t byte_count;

    uint32_t number = qs_packet_write(sent, sent_len, bits, sizeof bits, &bit_count);
    if (number != 0) {
        return refused("packet write", number);
    }
    printf("packet  %u bits  ", (unsigned)bit_count);
    for (uint32_t i = 0; i < bit_count; i++) {
        putchar(bits[i] ? '1' : '0');
    }
    putchar('\n');

    number = qs_packet_read(bits, bit_count, payload, sizeof payload, &byte_count);
    if (number != 0) {
        return refused("packet read", number);
    }
    printf("payload %u bytes ", (unsigned)byte_count);
    for (uint32_t i = 0; i < byte_count; i++) {
        printf("%02X", payload[i]);
    }
    putchar('\n');
    if (byte_count != sent_len || memcmp(payload, sent, sent_len) != 0) {
        return 1;
    }
    return message_there_and_back(payload, byte_count);
}

int main(int argc, char **argv) {
    int status = 0;
    for (int i = 1; i < argc; i++) {
        uint8_t sent[64];
        int sent_len = bytes_of(argv[i], sent, sizeof sent);
        if (sent_len < 0) {
            printf("%s is no payload in hex of at most 64 bytes\n", argv[i]);
            return 1;
        }
        status |= packet_there_and_back(sent, (size_t)sent_len);
    }
    return status;
}
