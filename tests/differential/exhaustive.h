/* The same by trying everything, for jobs of few edges: all sets of plugged edges, all choices of whole-number costs of all
 * edges by rising steps, negative ones among them, and all matchings. */
#ifndef EXHAUSTIVE_H
#define EXHAUSTIVE_H

#include "reference.h"

enum { FEW_EDGES = 10, TREES_MOST = 1 << FEW_EDGES, MATCHINGS_MOST = 200 };

/* The spanning trees of a job, as sets of edges. */
struct trees {
    size_t count;
    uint32_t set[TREES_MOST];
};

/* All best choices of costs in short, and the best matchings that an answer may list. */
struct search {
    uint32_t steps;
    int32_t low[FEW_EDGES], high[FEW_EDGES];
    size_t matchings;
    struct matching matching[MATCHINGS_MOST];
};

typedef void choice_visit(const int32_t *cost, void *context);

void find_trees(const struct job *job, struct trees *trees);
bool is_cheapest_of(const struct job *job, const struct trees *trees, const int32_t *cost);
void each_choice(const struct job *job, uint32_t steps, choice_visit *visit, void *context);
void search_all(const struct job *job, struct search *search);

#endif
