/* compare_message.c - compares the product's messages with the second program's on the whole stream of cases.
 * Usage: compare_message VECTORS_DIR */
#include "../include/quaysickle.h"
#include "message_run.h"
#include "report.h"

#include <stdio.h>

static const struct program product = {
    .name = "product",
    .message_write = qs_message_write,
    .message_read = qs_message_read,
};

int main(int argc, char **argv)
{
    struct report report = {0, 0};
    if (argc != 2) {
        fprintf(stderr, "usage: compare_message VECTORS_DIR\n");
        return 2;
    }
    message_run(&report, &product, argv[1]);
    return report_end(&report);
}
