/* A second implementation of docs/FRAMES.md, to hold the library against; sheets.h has the step sheets. It shares no code with
 * it and finds the answers another way: frames are read by a state machine, question 6 is union-find, the tree is judged by
 * Prim's algorithm, paths are walked up parent pointers, and steps and costs come from one minimum cut for every level of
 * cost. */
#ifndef REFERENCE_H
#define REFERENCE_H

#include <stdbool.h>
#include <stddef.h>
#include <stdint.h>

enum {
    NODES_MOST = 64,
    EDGES_MOST = 256,
    NUMBER_BYTES = 3,
    STEP_BYTES = 4,
    CODE_BYTES = 4,
    COST_MOST = 2097151,
    NUMBERS_MOST = 2 + 4 * EDGES_MOST,
    PAIRS_MOST = 2 * NODES_MOST,
    ANSWER_ROOM = 4096,
    NONE = EDGES_MOST
};

/* The marks. An unplugged edge is in no tree and in no pair, lies over nothing and keeps its cost. */
enum { SPARE, TREE, UNPLUGGED, MARKS };

/* The numbers of a frame. Those past NUMBERS_MOST are only counted: no accepted job and no right answer has them. No right
 * answer has more than PAIRS_MOST pairs either; there is room for some wrong ones. */
struct numbers {
    bool whole;
    size_t count;
    uint32_t value[NUMBERS_MOST];
    size_t start[NUMBERS_MOST + 1];
};

struct edge {
    uint32_t end1, end2, cost, mark;
};

struct job {
    uint32_t nodes;
    size_t edges;
    struct edge edge[EDGES_MOST];
};

struct pair {
    uint32_t tree, spare;
};

struct matching {
    size_t pairs;
    struct pair pair[PAIRS_MOST];
};

/* What an answer frame holds, right or not. */
struct answer {
    uint32_t steps;
    int32_t cost[EDGES_MOST];
    struct matching matching;
};

/* The fewest steps, the lowest and the highest best costs, and a best matching. */
struct solution {
    uint32_t steps;
    int32_t low[EDGES_MOST], high[EDGES_MOST];
    struct matching matching;
};

/* frame.c: `first_most` is how many bytes the first number may have; all others may have NUMBER_BYTES. In a sheet all may have
 * CODE_BYTES. */
void divide(const uint8_t *frame, size_t length, size_t first_most, struct numbers *numbers);
void divide_sheet(const uint8_t *sheet, size_t length, struct numbers *numbers);
size_t put_number(uint8_t *to, uint32_t value);
size_t put_edges(uint8_t *to, uint32_t nodes, const struct edge *edge, size_t count);
size_t put_job(uint8_t *to, const struct job *job);
size_t put_answer(uint8_t *to, const struct job *job, const struct answer *answer);
size_t put_instead(uint8_t *to, const uint8_t *frame, size_t length, size_t start, size_t end, const uint8_t *part,
                   size_t part_length);
int read_job(const struct numbers *numbers, struct job *job);
bool read_answer(const struct job *job, const struct numbers *numbers, struct answer *answer);

/* reference.c, all of an accepted job but the first. */
bool is_spanning(const struct job *job);
bool has_unplugged(const struct job *job);
bool is_cheapest(const struct job *job, const int32_t *cost);
uint64_t deviation(const struct job *job, const int32_t *cost);
int64_t weight(const struct job *job, const struct matching *matching);
void old_costs(const struct job *job, int32_t *cost);
void solve(const struct job *job, struct solution *solution);
bool judge_answer(const struct job *job, const struct numbers *numbers);

#endif
