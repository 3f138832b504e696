/* test_choosing.c - the second program's own tests of choosing and report, without the product. Usage: test_choosing */
#include "all_draws.h"
#include "choosing_by_hand.h"
#include "choosing_sequences.h"

int main(void)
{
    struct report report = {0, 0};
    windows_by_hand(&report);
    window_slots_by_hand(&report);
    candidates_by_hand(&report);
    choices_by_hand(&report);
    choosing_refusals_by_hand(&report);
    reports_by_hand(&report);
    all_draws_by_hand(&report);
    strange_choices_at_random(&report);
    strange_reports_at_random(&report);
    choosing_sequences(&report);
    return report_end(&report);
}
