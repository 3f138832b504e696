/* faults.h - packets with several faults at once: of the numbers that fit, the first in order is to be given back. */
#ifndef SECOND_FAULTS_H
#define SECOND_FAULTS_H

#include "stream.h"

void give_several_faults(struct stream *stream);

#endif
