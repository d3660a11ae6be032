/* The step count by LEMON's network simplex. */
#ifndef LEMON_STEPS_H
#define LEMON_STEPS_H

#include "plain.h"

#ifdef __cplusplus
extern "C" {
#endif

/* The greatest weight of a matching, which is the step count, of a job that plain_accept has filled. */
unsigned lemon_steps(const plain_job *job);

#ifdef __cplusplus
}
#endif

#endif
