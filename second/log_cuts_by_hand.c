/* log_cuts_by_hand.c - a short log with every kind of record, cut at every place and handed out in parts of every size.
 * The line of each record and the sum after it were worked out by hand. */
#include "journal.h"
#include "log_by_hand.h"
#include "log_case.h"

#define COUNT_OF(list) (sizeof(list) / sizeof(list)[0])

struct hand_record {
    const char *hex, *line, *sum;
};

#define SUM_NEW "sum 20250 0 0 20250\n"

static const struct hand_record hand[] = {
    {"07 00 03 00 00 00 0E 00 00", "plan 14 0\n", SUM_NEW},
    {"10 00 04 00 00 00 05 00 00 00 FF FF FF FF 80 06 C8 FC", "at 5 -1 -54000000\n", SUM_NEW},
    {"08 00 02 00 00 00 00 03 05 00", "own 2239 2239 33 0\n", "sum 20246 4 0 20250\n"},
    {"19 00 01 00 01 00 04 00 00 00 04 00 00 00 00 00 00 00 00 00 00 00 00 00 00 C0 00", "heard 1 3\n",
     "sum 20243 4 3 20250\n"},
    {"02 00 05 00", "refused 41\n", "sum 20243 4 3 20250\n"},
    {"00 00", "refused 41\n", "sum 20243 4 3 20250\n"},
    {"01 00 09", "refused 41\n", "sum 20243 4 3 20250\n"},
    {"08 00 02 00 BE 08 00 03 05 00", "refused 32\n", "sum 20243 4 3 20250\n"},
    {"07 00 03 00 01 00 01 00 00", "plan 1 0\n", "sum 20247 0 3 20250\n"},
    {"19 00 01 00 FF FF 00 00 00 00 00 00 00 00 00 00 00 00 00 00 00 00 00 00 00 00 00", "refused 18\n", SUM_NEW},
};

static struct log whole;

/* The lines of the records that end within so many bytes, then 40 where more bytes follow them, then the sum. */
static void expect_part(size_t len, struct text *lines)
{
    static struct log so_far;
    const char *sum = SUM_NEW;
    size_t run = 0;
    log_new(&so_far);
    for (size_t i = 0; i < COUNT_OF(hand); i++) {
        put_hex(&so_far, hand[i].hex);
        if (so_far.len > len) {
            break;
        }
        text_add(lines, "%s", hand[i].line);
        sum = hand[i].sum;
        run = so_far.len;
    }
    text_add(lines, "%s%s", run < len ? "refused 40\n" : "", sum);
}

static void make_whole(void)
{
    log_new(&whole);
    for (size_t i = 0; i < COUNT_OF(hand); i++) {
        put_hex(&whole, hand[i].hex);
    }
}

static void test_cuts(struct report *report)
{
    struct check check = {.name = "a log cut at every place: the lines of the whole records, 40 or not, the sum"};
    size_t len = whole.len;
    for (whole.len = 0; whole.len < len; whole.len++) {
        struct text lines = {.len = 0};
        expect_part(whole.len, &lines);
        check_lines(&check, &whole, lines.chars, "a cut log");
    }
    struct text lines = {.len = 0};
    expect_part(len, &lines);
    check_lines(&check, &whole, lines.chars, "the whole log");
    check_report(&check, report);
}

static void check_part(struct check *check, size_t part, size_t room)
{
    uint8_t bytes[20];
    struct log_buffer buffer = {whole.bytes, whole.len, part};
    const struct log_reader reader = log_from_buffer(&buffer);
    size_t expected = part < room ? part : room;
    check_that(check, reader.next(reader.state, bytes, room) == expected, "not as many as asked for, or as a part has");
}

static void test_parts(struct report *report)
{
    static struct written in_one, in_parts;
    struct check check = {.name = "a log handed out in parts of every size gives the same lines, cut or not"};
    check_part(&check, 3, 20);
    check_part(&check, 20, 3);
    for (size_t len = whole.len - 1; len <= whole.len; len++) {
        run_in_parts(whole.bytes, len, SIZE_MAX, &in_one);
        for (size_t part = 1; part <= whole.len; part++) {
            run_in_parts(whole.bytes, len, part, &in_parts);
            check_that(&check, written_same(&in_one, &in_parts), "a size");
        }
    }
    check_report(&check, report);
}

/* As the program does it, from one file to another. */
static void test_files(struct report *report)
{
    static struct journal journal;
    static struct written expected, written;
    struct check check = {.name = "a log from a file gives the same lines to a file"};
    FILE *in = tmpfile(), *out = tmpfile();
    if (in != NULL && out != NULL) {
        const struct log_reader reader = log_from_file(in);
        fwrite(whole.bytes, 1, whole.len, in);
        rewind(in);
        journal_new(&journal, lines_to_file(out));
        journal_run(&journal, &reader);
        rewind(out);
        written.len = fread(written.chars, 1, sizeof written.chars, out);
        run_in_parts(whole.bytes, whole.len, SIZE_MAX, &expected);
        check_that(&check, written_same(&expected, &written), "lines");
        fclose(in);
        fclose(out);
    }
    check_report(&check, report);
}

void log_cuts_by_hand(struct report *report)
{
    make_whole();
    test_cuts(report);
    test_parts(report);
    test_files(report);
}
