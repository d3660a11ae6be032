/* Replays that are wrong in one thing each. The logs tried must tell every one from the right replay. */
#ifndef MISTAKES_H
#define MISTAKES_H

#include "logs.h"

enum { MISTAKES = 12 };

extern const char *const mistakes[MISTAKES];

void replay_wrongly(size_t mistake, const struct job *job, const struct log *log, struct replay *replay);

#endif
