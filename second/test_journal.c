/* test_journal.c - the second program's own tests of the event log, without the product. Usage: test_journal */
#include "log_by_hand.h"
#include "log_sequences.h"

int main(void)
{
    struct report report = {0, 0};
    log_records_by_hand(&report);
    log_lines_by_hand(&report);
    log_cuts_by_hand(&report);
    log_text_by_hand(&report);
    log_sequences(&report);
    return report_end(&report);
}
