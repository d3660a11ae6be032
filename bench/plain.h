/* The plain C version of the library's algorithm, written apart from it to be compared with it. */
#ifndef PLAIN_H
#define PLAIN_H

#include <stddef.h>
#include <stdint.h>

#ifdef __cplusplus
extern "C" {
#endif

enum {
    PLAIN_NODES = 64,
    PLAIN_EDGES = 256,
    PLAIN_NUMBERS = 2 + 4 * PLAIN_EDGES,
    PLAIN_WORDS = PLAIN_EDGES / 64,
};

/* An accepted job. Tree edges have ranks by falling cost, spares by rising cost; of equal costs the lower edge is first.
 * Unplugged edges have none. */
typedef struct {
    unsigned nodes, edges, trees, spares;
    uint32_t number[PLAIN_NUMBERS];                /* the numbers of the frame */
    uint8_t tree[PLAIN_EDGES], spare[PLAIN_EDGES]; /* the edge of each rank */
    uint64_t mask[PLAIN_NODES];                    /* for each node, the tree ranks on its path from node 0 */
    uint64_t row[PLAIN_NODES][PLAIN_WORDS];        /* for each tree rank, the spare ranks that cover it */
} plain_job;

static inline unsigned plain_cost(const plain_job *job, unsigned edge)
{
    return job->number[4 + 4 * edge];
}

/* Puts questions 1 to 6 to a frame and fills the job. 0 or the refusal. */
int plain_accept(const uint8_t *frame, size_t length, plain_job *job);

/* What ist_answer does. */
int32_t plain_answer(const uint8_t *frame, size_t length, uint8_t *area, size_t area_length, size_t *written);

/* What ist_replay does. */
int32_t plain_replay(const uint8_t *frame, size_t length, const uint8_t *log, size_t log_length, uint8_t *area,
                     size_t area_length, size_t *written, size_t *first);

#ifdef __cplusplus
}
#endif

#endif
