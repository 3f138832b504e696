/* makelog.c - writes one random event log to standard output. Usage: makelog SEED KIND */
#include "logs.h"

#include <stdlib.h>
#include <string.h>

enum { STATUS_FAILED = 1, STATUS_USAGE = 2 };

static int usage(void)
{
    fprintf(stderr, "usage: makelog SEED KIND, where SEED is a number and KIND one of:");
    for (int kind = 0; kind < LOG_KINDS; kind++) {
        fprintf(stderr, " %s", log_kind_names[kind]);
    }
    fprintf(stderr, "\n");
    return STATUS_USAGE;
}

static int kind_of(const char *name)
{
    int kind = 0;
    while (kind < LOG_KINDS && strcmp(log_kind_names[kind], name) != 0) {
        kind++;
    }
    return kind;
}

int main(int count, char **words)
{
    static struct log log;
    if (count != 3 || words[1][0] == '\0' || words[1][strspn(words[1], "0123456789")] != '\0') {
        return usage();
    }
    int kind = kind_of(words[2]);
    if (kind == LOG_KINDS) {
        return usage();
    }
    log_make(&log, strtoull(words[1], NULL, 10), (enum log_kind)kind);
    fwrite(log.bytes, 1, log.len, stdout);
    if (fflush(stdout) != 0 || ferror(stdout) != 0) {
        fprintf(stderr, "makelog: standard output failed\n");
        return STATUS_FAILED;
    }
    return 0;
}
