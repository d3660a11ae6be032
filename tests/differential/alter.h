/* Answer frames made from a right one: some are right too, most are not. */
#ifndef ALTER_H
#define ALTER_H

#include "reference.h"

struct given {
    const struct job *job;
    const struct solution *solution;
    struct answer answer;
    uint8_t frame[ANSWER_ROOM];
    size_t length;
};

extern const uint32_t alterations;

size_t alter(uint32_t which, const struct given *given, uint8_t *to);

#endif
