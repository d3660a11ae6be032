/* The library's replay of packet logs, on the job frame lent. */
#ifndef REPLAYS_H
#define REPLAYS_H

#include "alter.h"

/* Holds ist_replay to the reference on these bytes as a log. The job is the frame's if that is not refused, with the steps of
 * its answer. */
void check_log(int refusal, const struct job *job, uint32_t steps, const uint8_t *log, size_t length);
/* The same on some logs or, if `thorough`, on all kinds of them. */
void check_replays(int refusal, const struct given *given);

#endif
