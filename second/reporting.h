/* reporting.h - the report of the second program: the product is compared with it.
 * It is written from the documents (document 01, "Report" and "Messages"), not from the product. */
#ifndef SECOND_REPORTING_H
#define SECOND_REPORTING_H

#include "windows.h"

/* What our own report says. Of the sub-messages the one that belongs to the time-out is set; all others are 0. */
struct reported {
    uint32_t time_out;
    uint32_t offset;               /* time-out 0 */
    uint32_t hour, minute, unused; /* time-out 1 */
    uint32_t slot_number;          /* time-outs 2, 4, 6 */
    uint32_t stations;             /* time-outs 3, 5, 7 */
};

/* Returns a number of the table. A report changes nothing, and a refusal not even the answer. */
uint32_t second_report(const struct book *book, uint32_t hour, uint32_t minute, struct reported *reported);

#endif
