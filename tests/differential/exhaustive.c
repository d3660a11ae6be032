/* See exhaustive.h. */
#include "exhaustive.h"

/* Gives the nodes that a set of edges joins the same name. */
static void name_parts(const struct job *job, uint32_t set, uint32_t *name)
{
    for (uint32_t v = 0; v < job->nodes; v++)
        name[v] = v;
    for (size_t e = 0; e < job->edges; e++) {
        uint32_t one = name[job->edge[e].end1], other = name[job->edge[e].end2];
        if ((set >> e & 1) == 0)
            continue;
        for (uint32_t v = 0; v < job->nodes; v++)
            name[v] = name[v] == other ? one : name[v];
    }
}

static bool joins_all(const struct job *job, uint32_t set)
{
    uint32_t name[NODES_MOST];

    name_parts(job, set, name);
    for (uint32_t v = 0; v < job->nodes; v++)
        if (name[v] != name[0])
            return false;
    return true;
}

static uint32_t marked_set(const struct job *job, uint32_t mark)
{
    uint32_t set = 0;

    for (size_t e = 0; e < job->edges; e++)
        set |= (uint32_t)(job->edge[e].mark == mark) << e;
    return set;
}

static uint32_t size_of_set(uint32_t set)
{
    uint32_t size = 0;

    for (; set != 0; set >>= 1)
        size += set & 1;
    return size;
}

void find_trees(const struct job *job, struct trees *trees)
{
    uint32_t unplugged = marked_set(job, UNPLUGGED);

    trees->count = 0;
    for (uint32_t set = 0; set < (uint32_t)1 << job->edges; set++)
        if ((set & unplugged) == 0 && size_of_set(set) == job->nodes - 1 && joins_all(job, set))
            trees->set[trees->count++] = set;
}

static int64_t total(const struct job *job, uint32_t set, const int32_t *cost)
{
    int64_t sum = 0;

    for (size_t e = 0; e < job->edges; e++)
        sum += (set >> e & 1) == 1 ? cost[e] : 0;
    return sum;
}

bool is_cheapest_of(const struct job *job, const struct trees *trees, const int32_t *cost)
{
    int64_t marked = total(job, marked_set(job, TREE), cost);

    for (size_t i = 0; i < trees->count; i++)
        if (total(job, trees->set[i], cost) < marked)
            return false;
    return true;
}

/* Every choice for the edges from e on that takes exactly so many steps. */
static void choose(const struct job *job, size_t e, int32_t left, int32_t *cost, choice_visit *visit, void *context)
{
    if (e == job->edges) {
        if (left == 0)
            visit(cost, context);
        return;
    }
    for (int32_t change = -left; change <= left; change++) {
        if (e + 1 == job->edges && change != -left && change != left)
            continue;
        cost[e] = (int32_t)job->edge[e].cost + change;
        choose(job, e + 1, left - (change < 0 ? -change : change), cost, visit, context);
    }
}

void each_choice(const struct job *job, uint32_t steps, choice_visit *visit, void *context)
{
    int32_t cost[FEW_EDGES] = {0};

    choose(job, 0, (int32_t)steps, cost, visit, context);
}

struct best {
    const struct job *job;
    const struct trees *trees;
    struct search *search;
    size_t count;
};

static void take_best(const int32_t *cost, void *context)
{
    struct best *best = context;
    struct search *search = best->search;

    if (!is_cheapest_of(best->job, best->trees, cost))
        return;
    for (size_t e = 0; e < best->job->edges; e++) {
        if (best->count == 0 || cost[e] < search->low[e])
            search->low[e] = cost[e];
        if (best->count == 0 || cost[e] > search->high[e])
            search->high[e] = cost[e];
    }
    best->count++;
}

/* Without the tree edge, do the marked ones leave the spare's ends apart? */
static bool covers(const struct job *job, size_t spare, size_t tree)
{
    uint32_t name[NODES_MOST];

    name_parts(job, marked_set(job, TREE) & ~((uint32_t)1 << tree), name);
    return name[job->edge[spare].end1] != name[job->edge[spare].end2];
}

/* Keeps every matching of the greatest weight whose pairs all weigh something; the tree edges from t on are still open. */
static void match(const struct job *job, size_t t, uint32_t used, struct matching *some, struct search *search)
{
    if (t == job->edges) {
        if (weight(job, some) == (int64_t)search->steps && search->matchings < MATCHINGS_MOST)
            search->matching[search->matchings++] = *some;
        return;
    }
    match(job, t + 1, used, some, search);
    if (job->edge[t].mark != TREE)
        return;
    for (size_t s = 0; s < job->edges; s++) {
        if (job->edge[s].mark != SPARE || (used >> s & 1) == 1)
            continue;
        if (job->edge[s].cost >= job->edge[t].cost || !covers(job, s, t))
            continue;
        some->pair[some->pairs++] = (struct pair){(uint32_t)t, (uint32_t)s};
        match(job, t + 1, used | (uint32_t)1 << s, some, search);
        some->pairs--;
    }
}

void search_all(const struct job *job, struct search *search)
{
    struct trees trees;
    struct best best = {job, &trees, search, 0};
    static struct matching some;

    find_trees(job, &trees);
    for (search->steps = 0;; search->steps++) {
        each_choice(job, search->steps, take_best, &best);
        if (best.count > 0)
            break;
    }
    search->matchings = 0;
    some.pairs = 0;
    match(job, 0, 0, &some, search);
}
