/* slotbook.c - the program `slotbook` of the second program: an event log from standard input, its lines to standard
 * output. The status is 0 also where the log ends inside a record; it is 1 where input or output fails. */
#include "journal.h"

/* The lines of what was read before are given all the same. */
static int failed(const char *what)
{
    fprintf(stderr, "slotbook: standard %s failed\n", what);
    return 1;
}

int main(void)
{
    static struct journal journal;
    const struct log_reader reader = log_from_file(stdin);
    journal_new(&journal, lines_to_file(stdout));
    journal_run(&journal, &reader);
    if (ferror(stdin) != 0) {
        return failed("input");
    }
    if (fflush(stdout) != 0 || ferror(stdout) != 0) {
        return failed("output");
    }
    return 0;
}
