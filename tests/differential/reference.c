/* Trees, the fewest steps with their costs, a best matching, and the judges.
 *
 * Steps and costs: best costs are sought level by level. For a level k let an edge be "above" if its new cost exceeds k. A
 * spare over a tree edge that is above is above too, and each edge that is above where its old cost is not, or the reverse,
 * takes one step between k and k + 1. The fewest such edges are a minimum cut, found as a matching of most pairs between
 * the tree edges that cost more than k and the spares that do not. The smallest minimum cuts give the lowest costs, the
 * largest the highest ones. Only levels that are old costs need be looked at: nothing changes between two of them. An unplugged
 * edge has no cover, so that no cut moves it.
 *
 * The matching: of greatest weight by best alternating paths in the table of weights, found as Bellman and Ford do. */
#include <string.h>

#include "reference.h"

/* The edges that lie over each tree edge, and those that each spare lies over. */
struct covers {
    size_t count[EDGES_MOST];
    uint16_t edge[EDGES_MOST][EDGES_MOST];
};

struct rooted_tree {
    bool placed[NODES_MOST];
    uint32_t parent[NODES_MOST], depth[NODES_MOST];
    size_t parent_edge[NODES_MOST];
};

static uint32_t root_of(const uint32_t *up, uint32_t node)
{
    while (up[node] != node)
        node = up[node];
    return node;
}

/* Question 6: as many tree edges as nodes but one, and no two of them join the same parts. */
bool is_spanning(const struct job *job)
{
    uint32_t up[NODES_MOST];
    size_t parts = job->nodes, trees = 0;

    for (uint32_t v = 0; v < job->nodes; v++)
        up[v] = v;
    for (size_t e = 0; e < job->edges; e++) {
        if (job->edge[e].mark != TREE)
            continue;
        uint32_t root1 = root_of(up, job->edge[e].end1), root2 = root_of(up, job->edge[e].end2);
        trees++;
        parts -= root1 != root2;
        up[root1] = root2;
    }
    return trees == job->nodes - 1 && parts == 1;
}

bool has_unplugged(const struct job *job)
{
    for (size_t e = 0; e < job->edges; e++)
        if (job->edge[e].mark == UNPLUGGED)
            return true;
    return false;
}

void old_costs(const struct job *job, int32_t *cost)
{
    for (size_t e = 0; e < job->edges; e++)
        cost[e] = (int32_t)job->edge[e].cost;
}

uint64_t deviation(const struct job *job, const int32_t *cost)
{
    uint64_t sum = 0;

    for (size_t e = 0; e < job->edges; e++) {
        int64_t change = (int64_t)cost[e] - job->edge[e].cost;
        sum += (uint64_t)(change < 0 ? -change : change);
    }
    return sum;
}

static int64_t pair_weight(const struct job *job, size_t tree, size_t spare)
{
    return (int64_t)job->edge[tree].cost - job->edge[spare].cost;
}

int64_t weight(const struct job *job, const struct matching *matching)
{
    int64_t sum = 0;

    for (size_t i = 0; i < matching->pairs; i++)
        sum += pair_weight(job, matching->pair[i].tree, matching->pair[i].spare);
    return sum;
}

/* The cheapest plugged edge between a reached node and another. */
static size_t next_edge(const struct job *job, const int32_t *cost, const bool *reached)
{
    size_t best = NONE;

    for (size_t e = 0; e < job->edges; e++) {
        const struct edge *edge = &job->edge[e];
        if (edge->mark == UNPLUGGED || reached[edge->end1] == reached[edge->end2])
            continue;
        if (best == NONE || cost[e] < cost[best])
            best = e;
    }
    return best;
}

/* Prim's algorithm finds the smallest total cost of a spanning tree. */
bool is_cheapest(const struct job *job, const int32_t *cost)
{
    bool reached[NODES_MOST] = {true};
    int64_t smallest = 0, marked = 0;

    for (uint32_t round = 1; round < job->nodes; round++) {
        size_t e = next_edge(job, cost, reached);
        smallest += cost[e];
        reached[job->edge[e].end1] = reached[job->edge[e].end2] = true;
    }
    for (size_t e = 0; e < job->edges; e++)
        marked += job->edge[e].mark == TREE ? cost[e] : 0;
    return marked == smallest;
}

static bool place(struct rooted_tree *tree, uint32_t parent, uint32_t node, size_t e)
{
    if (!tree->placed[parent] || tree->placed[node])
        return false;
    tree->placed[node] = true;
    tree->parent[node] = parent;
    tree->depth[node] = tree->depth[parent] + 1;
    tree->parent_edge[node] = e;
    return true;
}

static void root_tree(const struct job *job, struct rooted_tree *tree)
{
    memset(tree, 0, sizeof *tree);
    tree->placed[0] = true;
    for (bool more = true; more;) {
        more = false;
        for (size_t e = 0; e < job->edges; e++) {
            const struct edge *edge = &job->edge[e];
            if (edge->mark == TREE && (place(tree, edge->end1, edge->end2, e) || place(tree, edge->end2, edge->end1, e)))
                more = true;
        }
    }
}

/* The tree edges between a spare's ends, from both ends up to where they meet. */
static size_t tree_path(const struct rooted_tree *tree, const struct edge *spare, uint16_t *path)
{
    uint32_t a = spare->end1, b = spare->end2;
    size_t length = 0;

    while (a != b) {
        uint32_t *deeper = tree->depth[a] > tree->depth[b] ? &a : &b;
        path[length++] = (uint16_t)tree->parent_edge[*deeper];
        *deeper = tree->parent[*deeper];
    }
    return length;
}

static void find_covers(const struct job *job, struct covers *covers)
{
    struct rooted_tree tree;

    root_tree(job, &tree);
    memset(covers->count, 0, job->edges * sizeof covers->count[0]);
    for (size_t s = 0; s < job->edges; s++) {
        if (job->edge[s].mark != SPARE)
            continue;
        covers->count[s] = tree_path(&tree, &job->edge[s], covers->edge[s]);
        for (size_t i = 0; i < covers->count[s]; i++) {
            uint16_t t = covers->edge[s][i];
            covers->edge[t][covers->count[t]++] = (uint16_t)s;
        }
    }
}

/* The cut at one level. `mate` pairs tree edges above the level with spares that are not. */
struct level {
    const struct job *job;
    const struct covers *covers;
    uint32_t cost;
    size_t mate[EDGES_MOST];
};

static bool is_tree(const struct level *level, size_t e)
{
    return level->job->edge[e].mark == TREE;
}

static bool was_above(const struct level *level, size_t e)
{
    return level->job->edge[e].cost > level->cost;
}

/* Marks what unpaired tree edges reach by alternating paths. The first unpaired spare met ends the search. */
static size_t reach(const struct level *level, bool *reached, size_t *from)
{
    size_t queue[EDGES_MOST], head = 0, tail = 0;

    for (size_t e = 0; e < level->job->edges; e++) {
        reached[e] = is_tree(level, e) && was_above(level, e) && level->mate[e] == NONE;
        if (reached[e])
            queue[tail++] = e;
    }
    for (; head < tail; head++) {
        size_t t = queue[head];
        for (size_t i = 0; i < level->covers->count[t]; i++) {
            size_t s = level->covers->edge[t][i];
            if (was_above(level, s) || reached[s])
                continue;
            reached[s] = true;
            from[s] = t;
            if (level->mate[s] == NONE)
                return s;
            reached[level->mate[s]] = true;
            queue[tail++] = level->mate[s];
        }
    }
    return NONE;
}

/* Marks what reaches an unpaired spare by an alternating path. */
static void reach_back(const struct level *level, bool *reaching)
{
    size_t queue[EDGES_MOST], head = 0, tail = 0;

    for (size_t e = 0; e < level->job->edges; e++) {
        reaching[e] = !is_tree(level, e) && !was_above(level, e) && level->mate[e] == NONE;
        if (reaching[e])
            queue[tail++] = e;
    }
    for (; head < tail; head++) {
        size_t s = queue[head];
        for (size_t i = 0; i < level->covers->count[s]; i++) {
            size_t t = level->covers->edge[s][i];
            if (!was_above(level, t) || reaching[t])
                continue;
            reaching[t] = true;
            reaching[level->mate[t]] = true;
            queue[tail++] = level->mate[t];
        }
    }
}

/* Pairs along the path that ends at a spare, in place of the pairs on it. */
static void flip(size_t *mate, const size_t *from, size_t spare)
{
    while (spare != NONE) {
        size_t tree = from[spare], next = mate[tree];
        mate[spare] = tree;
        mate[tree] = spare;
        spare = next;
    }
}

static void drop_pairs_below(struct level *level)
{
    for (size_t t = 0; t < level->job->edges; t++)
        if (is_tree(level, t) && !was_above(level, t) && level->mate[t] != NONE) {
            level->mate[level->mate[t]] = NONE;
            level->mate[t] = NONE;
        }
}

static uint32_t count_pairs(const struct level *level)
{
    uint32_t pairs = 0;

    for (size_t t = 0; t < level->job->edges; t++)
        pairs += is_tree(level, t) && level->mate[t] != NONE;
    return pairs;
}

/* An edge's best cost is the first level that it is not above. */
static void settle_costs(const struct level *level, const bool *reached, struct solution *solution)
{
    bool reaching[EDGES_MOST];

    reach_back(level, reaching);
    for (size_t e = 0; e < level->job->edges; e++) {
        bool above_in_least = reached[e] || (!is_tree(level, e) && was_above(level, e));
        bool above_in_most = !reaching[e] && (!is_tree(level, e) || was_above(level, e));
        if (!above_in_least && solution->low[e] < 0)
            solution->low[e] = (int32_t)level->cost;
        if (!above_in_most && solution->high[e] < 0)
            solution->high[e] = (int32_t)level->cost;
    }
}

static void cut(struct level *level, struct solution *solution)
{
    bool reached[EDGES_MOST];
    size_t from[EDGES_MOST], spare;

    drop_pairs_below(level);
    while ((spare = reach(level, reached, from)) != NONE)
        flip(level->mate, from, spare);
    settle_costs(level, reached, solution);
}

/* The lowest old cost above a level; the level itself if it is the highest. */
static uint32_t next_cost(const struct job *job, int64_t level)
{
    int64_t next = level;

    for (size_t e = 0; e < job->edges; e++)
        if (job->edge[e].cost > level && (next == level || job->edge[e].cost < next))
            next = job->edge[e].cost;
    return (uint32_t)next;
}

static void solve_costs(const struct job *job, const struct covers *covers, struct solution *solution)
{
    struct level level = {.job = job, .covers = covers};
    uint32_t next;

    solution->steps = 0;
    for (size_t e = 0; e < job->edges; e++) {
        level.mate[e] = NONE;
        solution->low[e] = solution->high[e] = -1;
    }
    if (job->edges == 0)
        return;
    for (level.cost = next_cost(job, -1);; level.cost = next) {
        cut(&level, solution);
        next = next_cost(job, level.cost);
        if (next == level.cost)
            return;
        solution->steps += count_pairs(&level) * (next - level.cost);
    }
}

struct gains {
    int64_t gain[EDGES_MOST];
    size_t from[EDGES_MOST];
};

/* Offers each spare over a tree edge, in a pair of positive weight, what a path to the tree edge gains with that pair. */
static bool offer(const struct job *job, const struct covers *covers, struct gains *gains, size_t t, int64_t gain)
{
    bool better = false;

    for (size_t i = 0; i < covers->count[t]; i++) {
        size_t s = covers->edge[t][i];
        int64_t added = pair_weight(job, t, s);
        if (added > 0 && gain + added > gains->gain[s]) {
            gains->gain[s] = gain + added;
            gains->from[s] = t;
            better = true;
        }
    }
    return better;
}

/* Adds the best alternating path to the matching; false if no path gains. */
static bool augment(const struct job *job, const struct covers *covers, size_t *mate)
{
    struct gains gains;
    size_t best = NONE;

    for (size_t e = 0; e < job->edges; e++)
        gains.gain[e] = INT64_MIN;
    for (size_t t = 0; t < job->edges; t++)
        if (job->edge[t].mark == TREE && mate[t] == NONE)
            offer(job, covers, &gains, t, 0);
    for (bool more = true; more;) {
        more = false;
        for (size_t s = 0; s < job->edges; s++)
            if (job->edge[s].mark == SPARE && mate[s] != NONE && gains.gain[s] != INT64_MIN)
                more |= offer(job, covers, &gains, mate[s], gains.gain[s] - pair_weight(job, mate[s], s));
    }
    for (size_t s = 0; s < job->edges; s++)
        if (job->edge[s].mark == SPARE && mate[s] == NONE && gains.gain[s] > (best == NONE ? 0 : gains.gain[best]))
            best = s;
    flip(mate, gains.from, best);
    return best != NONE;
}

static void solve_matching(const struct job *job, const struct covers *covers, struct matching *matching)
{
    size_t mate[EDGES_MOST];

    for (size_t e = 0; e < job->edges; e++)
        mate[e] = NONE;
    while (augment(job, covers, mate))
        continue;
    matching->pairs = 0;
    for (size_t t = 0; t < job->edges; t++)
        if (job->edge[t].mark == TREE && mate[t] != NONE)
            matching->pair[matching->pairs++] = (struct pair){(uint32_t)t, (uint32_t)mate[t]};
}

void solve(const struct job *job, struct solution *solution)
{
    static struct covers covers;

    find_covers(job, &covers);
    solve_costs(job, &covers, solution);
    solve_matching(job, &covers, &solution->matching);
}

static bool lies_over(const struct job *job, const struct rooted_tree *tree, uint32_t spare, uint32_t edge)
{
    uint16_t path[NODES_MOST];
    size_t length = tree_path(tree, &job->edge[spare], path);

    for (size_t i = 0; i < length; i++)
        if (path[i] == edge)
            return true;
    return false;
}

/* Tree edge first, the spare over it and cheaper, rising by tree edge, no edge twice. */
static bool is_matching(const struct job *job, const struct matching *matching)
{
    struct rooted_tree tree;
    bool used[EDGES_MOST] = {false};

    root_tree(job, &tree);
    for (size_t i = 0; i < matching->pairs; i++) {
        struct pair pair = matching->pair[i];
        if (pair.tree >= job->edges || pair.spare >= job->edges)
            return false;
        if (job->edge[pair.tree].mark != TREE || job->edge[pair.spare].mark != SPARE)
            return false;
        if (used[pair.spare] || (i > 0 && pair.tree <= matching->pair[i - 1].tree))
            return false;
        if (!lies_over(job, &tree, pair.spare, pair.tree) || pair_weight(job, pair.tree, pair.spare) <= 0)
            return false;
        used[pair.spare] = true;
    }
    return true;
}

bool judge_answer(const struct job *job, const struct numbers *numbers)
{
    static struct answer answer;

    return read_answer(job, numbers, &answer) && answer.steps == deviation(job, answer.cost) &&
           is_cheapest(job, answer.cost) && is_matching(job, &answer.matching) &&
           weight(job, &answer.matching) == (int64_t)answer.steps;
}
