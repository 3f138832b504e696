/* message_lengths.h - messages and lists of numbers of every length about the limits, given and lent. */
#ifndef SECOND_MESSAGE_LENGTHS_H
#define SECOND_MESSAGE_LENGTHS_H

#include "stream.h"

void give_message_lengths(struct stream *stream);

#endif
