/* Random jobs of many shapes, and damage. Everything follows from the seed. */
#ifndef GENERATE_H
#define GENERATE_H

#include "reference.h"

/* The most bytes that damage adds to a frame. */
enum { DAMAGE_MOST = 8 };

typedef void job_visit(const struct job *job);

void seed(uint64_t with);
uint32_t pick(uint32_t below);
uint32_t pick_of(const uint32_t *value, size_t count);
#define PICK_OF(...) \
    pick_of((const uint32_t[]){__VA_ARGS__}, sizeof((const uint32_t[]){__VA_ARGS__}) / sizeof(uint32_t))
/* An accepted job of at most so many nodes and edges; `full`: of exactly so many. In half of the jobs a quarter to a half of the
 * edges besides the tree is unplugged. */
void random_job(struct job *job, uint32_t nodes_most, size_t edges_most, bool full);
/* All jobs of at most 3 nodes, 3 edges, costs 0 and 1 and marks 0 to 2, those that questions 4 and 6 refuse among them. */
void each_small_job(job_visit *visit);
/* Makes one thing wrong, or at least different. */
void damage_job(struct job *job);
/* The number with groups of zeros behind it. */
size_t put_longer(uint8_t *to, uint32_t value, uint32_t groups);
size_t damage_frame(const uint8_t *frame, size_t length, uint8_t *to);
size_t random_bytes(uint8_t *to, uint32_t length_most);

#endif
