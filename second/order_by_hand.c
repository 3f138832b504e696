/* order_by_hand.c - which refusal of the slot book comes first where a call deserves several. */
#include "book_by_hand.h"
#include "book_case.h"

#define COUNT_OF(list) (sizeof(list) / sizeof(list)[0])

static struct lent lent, before;

static const struct spoken good = {.source = 500, .said = {.kind = SELF_ORGANISED, .time_out = 4}};

/* Every set of faults that a message can have at once; the first of them by the order of the paper is expected. 35
 * comes with a message that is read already, where 17 and 18 are past. */
static void test_order_of_hearing(struct report *report)
{
    struct check check = {.name = "several refusals deserved in hearing: the first of 17, 18, 20, 21, 22, 23, 35"};
    static const uint32_t order[] = {17, 18, 20, 21, 22, 23, 35};
    for (unsigned faults = 0; faults < 128; faults++) {
        struct spoken spoken = good;
        uint8_t message[SECOND_MESSAGE_BYTES];
        struct heard heard = heard_nothing;
        bool from_bytes = (faults & 64) == 0;
        uint32_t expected = DONE;
        for (size_t i = COUNT_OF(order); i-- > (from_bytes ? 0 : 2);) {
            expected = faults >> i & 1 ? order[i] : expected;
        }
        lent_fill_register(&lent, faults & 32 ? 0 : 1);
        lent.book.slot_count -= faults & 4 ? 1 : 0;
        spoken.source = faults & 8 ? 0 : 500;
        spoken.repeat = faults & 16 ? 3 : 0;
        spoken.said = faults & 64 ? (struct announcement){.time_out = 0, .offset = 20250} : good.said;
        before = lent;
        speak(faults & 2 ? 9 : 1, &spoken, message);
        uint32_t number = from_bytes ? second_hear(&lent.book, message, faults & 1 ? 20 : 21, &heard)
                                     : second_hear_spoken(&lent.book, &spoken, &heard);
        check_number(&check, &before, &lent, number, expected, "number");
        check_that(&check, heard_same(&heard, &heard_nothing) == (number != DONE), "the answer");
    }
    check_report(&check, report);
}

static void test_order_of_the_others(struct report *report)
{
    struct check check = {.name = "several refusals deserved elsewhere: mark 20, 35; plan 20, 30; own 21, 30"};
    const struct announcement beyond = {.time_out = 0, .offset = 20250};
    uint32_t marks = 0;
    lent_new(&lent);
    lent.book.record_count = 256;
    before = lent;
    check_number(&check, &before, &lent, second_mark(&lent.book, 1, &beyond, &marks), REFUSAL_LIST_LENGTH, "mark");
    check_number(&check, &before, &lent, second_plan(&lent.book, 31, 2250), REFUSAL_LIST_LENGTH, "plan");
    check_number(&check, &before, &lent, second_own(&lent.book, 0, 54600000, 0), REFUSAL_SOURCE, "own");
    lent.book.record_count = before.book.record_count = 255;
    check_number(&check, &before, &lent, second_mark(&lent.book, 1, &beyond, &marks), REFUSAL_BEYOND, "mark alone");
    check_number(&check, &before, &lent, second_plan(&lent.book, 31, 2250), REFUSAL_RANGE, "plan alone");
    check_number(&check, &before, &lent, second_own(&lent.book, 1, 54600000, 0), REFUSAL_RANGE, "own alone");
    check_report(&check, report);
}

void order_by_hand(struct report *report)
{
    test_order_of_hearing(report);
    test_order_of_the_others(report);
}
