/* message_fields.h - lists of numbers to be written as messages: all within their widths, or some past them. */
#ifndef SECOND_MESSAGE_FIELDS_H
#define SECOND_MESSAGE_FIELDS_H

#include "message.h"
#include "random.h"
#include "stream.h"

enum { TIME_OUTS = 8 };

/* The numbers, and what the message that they stand for uses of them. */
struct field_list {
    int32_t fields[SECOND_FIELDS_MAX];
    struct second_field layout[SECOND_FIELDS_MAX];
    size_t count;
};

/* A message of any id and time-out, each number within its width. The places that it does not use hold anything. */
void make_any_fields(struct random *random, struct field_list *list);

/* Puts a number that is out of its width in place of one that the message uses, other than the id. */
void spoil_field(struct random *random, struct field_list *list);

/* Each number of each message at the limits of its width and past them, alone and together with others. */
void give_fields(struct stream *stream);

#endif
