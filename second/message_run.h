/* message_run.h - the whole stream of message cases on the product and the second program, and the report of it. */
#ifndef SECOND_MESSAGE_RUN_H
#define SECOND_MESSAGE_RUN_H

#include "call.h"
#include "report.h"

/* Where the product is NULL the second program is tested by itself. */
void message_run(struct report *report, const struct program *product, const char *directory);

#endif
