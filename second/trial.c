/* trial.c - makes a call on guarded buffers and looks at what it left there. */
#include "trial.h"

#include "message.h"
#include "packet.h"

#include <string.h>

enum { COUNT_BEFORE = 0x5EC0DE };

/* What a kind of call takes and answers: the bytes of one item given and of one item lent, and how many items an
 * answer has. */
static const struct form {
    size_t given_size;
    size_t lent_size;
    uint32_t least;
    uint32_t most;
} forms[CALL_KINDS] = {
    [PACKET_WRITE] = {1, 1, SECOND_PACKET_MIN, SECOND_PACKET_MAX},
    [PACKET_READ] = {1, 1, 1, SECOND_PAYLOAD_MAX},
    [MESSAGE_WRITE] = {sizeof(int32_t), 1, SECOND_MESSAGE_BYTES, SECOND_MESSAGE_BYTES},
    [MESSAGE_READ] = {1, sizeof(int32_t), SECOND_FIELDS_MIN, SECOND_FIELDS_MAX},
};

static uint8_t pattern[AREA_MAX];

bool case_writes(const struct call_case *one)
{
    return one->kind == PACKET_WRITE || one->kind == MESSAGE_WRITE;
}

static bool case_expects(const struct call_case *one, uint32_t number)
{
    switch (one->expected) {
    case EXPECT_ANY:
        return true;
    case EXPECT_REFUSAL:
        return number != DONE;
    default:
        return number == one->expected;
    }
}

static size_t given_bytes(const struct call_case *one)
{
    return one->given_len * forms[one->kind].given_size;
}

static size_t lent_bytes(const struct call_case *one)
{
    return one->lent_len * forms[one->kind].lent_size;
}

/* No byte of the pattern is a bit, and neighbours differ, so that a byte moved or written to shows. */
static void make_pattern(void)
{
    for (size_t i = 0; i < sizeof pattern; i++) {
        pattern[i] = (uint8_t)(0x80 | i * 29);
    }
}

/* What is given lies at the very end of its room, so that the sanitizer sees a step past it. */
static const void *copy_of_given(const struct call_case *one)
{
    static int32_t room[CASE_LENGTH_MAX];
    uint8_t *given = (uint8_t *)room + sizeof room - given_bytes(one);
    memcpy(given, one->given, given_bytes(one));
    return given;
}

/* Writing a message gives no count, since a message always has 21 bytes. */
static uint32_t make_call(const struct program *program, const struct call_case *one, const void *given, void *lent,
                          uint32_t *count)
{
    uint32_t number;
    switch (one->kind) {
    case PACKET_WRITE:
        return program->packet_write(given, one->given_len, lent, one->lent_len, count);
    case PACKET_READ:
        return program->packet_read(given, one->given_len, lent, one->lent_len, count);
    case MESSAGE_READ:
        return program->message_read(given, one->given_len, lent, one->lent_len, count);
    default:
        number = program->message_write(given, one->given_len, lent, one->lent_len);
        *count = number == DONE ? SECOND_MESSAGE_BYTES : *count;
        return number;
    }
}

void trial_run(struct trial *trial, const struct program *program, const struct call_case *one)
{
    const void *given = copy_of_given(one);
    if (pattern[0] == 0) {
        make_pattern();
    }
    memcpy(trial->area, pattern, GUARD + lent_bytes(one) + GUARD);
    trial->count = COUNT_BEFORE;
    trial->number = make_call(program, one, given, (uint8_t *)trial->area + GUARD, &trial->count);
    trial->given_changed = memcmp(given, one->given, given_bytes(one)) != 0;
}

const void *trial_answer(const struct trial *trial)
{
    return (const uint8_t *)trial->area + GUARD;
}

static bool kept(const struct trial *trial, size_t first, size_t end)
{
    return memcmp((const uint8_t *)trial->area + first, pattern + first, end - first) == 0;
}

static const char *refusal_fault(const struct trial *trial, size_t lent_end)
{
    if (trial->count != COUNT_BEFORE) {
        return "a refusal touched the count";
    }
    return kept(trial, GUARD, lent_end) ? NULL : "a refusal touched the lent buffer";
}

static const char *success_fault(const struct trial *trial, const struct call_case *one, size_t lent_end)
{
    const struct form *form = &forms[one->kind];
    if (trial->count < form->least || trial->count > form->most || trial->count > one->lent_len) {
        return "the count is out of its range";
    }
    return kept(trial, GUARD + trial->count * form->lent_size, lent_end) ? NULL : "bytes past the answer changed";
}

const char *trial_fault(const struct trial *trial, const struct call_case *one)
{
    size_t lent_end = GUARD + lent_bytes(one);
    if (!kept(trial, 0, GUARD) || !kept(trial, lent_end, lent_end + GUARD)) {
        return "a byte outside the lent buffer changed";
    }
    if (trial->given_changed) {
        return "what was given changed";
    }
    if (!case_expects(one, trial->number)) {
        return "the number is not the one expected";
    }
    return trial->number == DONE ? success_fault(trial, one, lent_end) : refusal_fault(trial, lent_end);
}

bool trial_same(const struct trial *left, const struct trial *right, const struct call_case *one)
{
    return left->number == right->number && left->count == right->count
        && memcmp(trial_answer(left), trial_answer(right), lent_bytes(one)) == 0;
}

static void text_add_items(struct text *text, const void *items, size_t len, size_t size)
{
    if (size == 1) {
        text_add_hex(text, items, len);
    } else {
        text_add_numbers(text, items, len);
    }
}

void text_add_case(struct text *text, const struct call_case *one)
{
    const struct form *form = &forms[one->kind];
    text_add(text, "%s %zu %s ", case_writes(one) ? "writing" : "reading", one->given_len,
             form->given_size == 1 ? "bytes" : "numbers");
    text_add_items(text, one->given, one->given_len, form->given_size);
    text_add(text, " with %zu lent", one->lent_len);
    if (one->expected < EXPECT_ANY) {
        text_add(text, ", expecting %u", (unsigned)one->expected);
    }
}

void text_add_trial(struct text *text, const struct trial *trial, const struct call_case *one)
{
    text_add(text, "%u, count %u, lent ", (unsigned)trial->number, (unsigned)trial->count);
    text_add_items(text, trial_answer(trial), one->lent_len, forms[one->kind].lent_size);
}
