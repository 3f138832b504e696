/* test_book.c - the second program's own tests of the slot book, without the product. Usage: test_book */
#include "book_by_hand.h"
#include "book_sequences.h"

int main(void)
{
    struct report report = {0, 0};
    calls_by_hand(&report);
    marks_by_hand(&report);
    records_by_hand(&report);
    rows_by_hand(&report);
    refusals_by_hand(&report);
    order_by_hand(&report);
    strange_books_by_hand(&report);
    strange_books_at_random(&report);
    book_sequences(&report);
    return report_end(&report);
}
