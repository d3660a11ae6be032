/* See alter.h. */
#include <string.h>

#include "alter.h"
#include "generate.h"

/* Steps and costs. */

static void steps_more(const struct given *given, struct answer *answer)
{
    answer->steps = given->answer.steps + 1;
}

static void steps_fewer(const struct given *given, struct answer *answer)
{
    answer->steps = given->answer.steps > 0 ? given->answer.steps - 1 : 127;
}

static void steps_long(const struct given *given, struct answer *answer)
{
    answer->steps = given->answer.steps + (pick(2) == 0 ? 1 << 21 : 1 << 28);
}

static void cost_changed(const struct given *given, struct answer *answer)
{
    if (given->job->edges == 0)
        return;
    int32_t *cost = &answer->cost[pick((uint32_t)given->job->edges)];
    *cost += *cost == 0 || (*cost < COST_MOST && pick(2) == 0) ? 1 : -1;
}

static void cost_and_steps_changed(const struct given *given, struct answer *answer)
{
    cost_changed(given, answer);
    answer->steps = (uint32_t)deviation(given->job, answer->cost);
}

static void cost_long(const struct given *given, struct answer *answer)
{
    if (given->job->edges > 0)
        answer->cost[pick((uint32_t)given->job->edges)] += pick(2) == 0 ? 1 << 16 : COST_MOST + 1;
}

static void costs_highest(const struct given *given, struct answer *answer)
{
    memcpy(answer->cost, given->solution->high, sizeof answer->cost);
}

/* Best ones too: the lowest, raised to one level as far as the highest allow. */
static void costs_between(const struct given *given, struct answer *answer)
{
    if (given->job->edges == 0)
        return;
    int32_t level = given->solution->high[pick((uint32_t)given->job->edges)] - (int32_t)pick(2);
    for (size_t e = 0; e < given->job->edges; e++) {
        int32_t low = given->solution->low[e], high = given->solution->high[e];
        answer->cost[e] = level < low ? low : level > high ? high : level;
    }
}

static void costs_old(const struct given *given, struct answer *answer)
{
    old_costs(given->job, answer->cost);
}

static void costs_old_alone(const struct given *given, struct answer *answer)
{
    old_costs(given->job, answer->cost);
    answer->steps = 0;
    answer->matching.pairs = 0;
}

static void costs_level(const struct given *given, struct answer *answer)
{
    for (size_t e = 0; e < given->job->edges; e++)
        answer->cost[e] = COST_MOST;
    answer->steps = (uint32_t)deviation(given->job, answer->cost);
}

/* One unplugged edge moved by a step, which is counted. */
static void unplugged_moved(const struct given *given, struct answer *answer)
{
    size_t edges = given->job->edges, start = pick((uint32_t)edges), i = 0;

    while (i < edges && given->job->edge[(start + i) % edges].mark != UNPLUGGED)
        i++;
    if (i == edges)
        return;
    int32_t *cost = &answer->cost[(start + i) % edges];
    *cost += *cost == 0 || (*cost < COST_MOST && pick(2) == 0) ? 1 : -1;
    answer->steps++;
}

static void unplugged_lowest(const struct given *given, struct answer *answer)
{
    for (size_t e = 0; e < given->job->edges; e++)
        if (given->job->edge[e].mark == UNPLUGGED)
            answer->cost[e] = 0;
    answer->steps = (uint32_t)deviation(given->job, answer->cost);
}

/* The answer to the job with all edges plugged. */
static void all_plugged(const struct given *given, struct answer *answer)
{
    static struct job plugged;
    static struct solution solution;

    plugged = *given->job;
    for (size_t e = 0; e < plugged.edges; e++)
        plugged.edge[e].mark %= UNPLUGGED;
    solve(&plugged, &solution);
    answer->steps = solution.steps;
    memcpy(answer->cost, solution.low, sizeof answer->cost);
    answer->matching = solution.matching;
}

/* Pairs. */

static void pairs_other(const struct given *given, struct answer *answer)
{
    answer->matching = given->solution->matching;
}

static void pairs_and_costs_other(const struct given *given, struct answer *answer)
{
    pairs_other(given, answer);
    costs_between(given, answer);
}

static void pairs_none(const struct given *given, struct answer *answer)
{
    (void)given;
    answer->matching.pairs = 0;
}

static struct pair *pick_pair(struct matching *matching)
{
    return &matching->pair[pick((uint32_t)matching->pairs)];
}

static void pair_dropped(const struct given *given, struct answer *answer)
{
    struct matching *matching = &answer->matching;
    size_t dropped = pick((uint32_t)matching->pairs);

    (void)given;
    if (matching->pairs == 0)
        return;
    matching->pairs--;
    for (size_t i = dropped; i < matching->pairs; i++)
        matching->pair[i] = matching->pair[i + 1];
}

static void pairs_exchanged(const struct given *given, struct answer *answer)
{
    struct pair *one = pick_pair(&answer->matching), *other = pick_pair(&answer->matching), held = *one;

    (void)given;
    *one = *other;
    *other = held;
}

/* Keeps the weight: valid if the spares lie over the other tree edges too and are cheaper. */
static void spares_exchanged(const struct given *given, struct answer *answer)
{
    struct pair *one = pick_pair(&answer->matching), *other = pick_pair(&answer->matching);
    uint32_t held = one->spare;

    (void)given;
    one->spare = other->spare;
    other->spare = held;
}

/* An edge with the same old cost, and mostly the same mark, from a random place on; the edge itself if there is none. */
static uint32_t edge_like(const struct job *job, uint32_t edge)
{
    uint32_t start = pick((uint32_t)job->edges);
    bool any_mark = pick(4) == 0;

    for (size_t i = 0; i < job->edges; i++) {
        uint32_t e = (uint32_t)((start + i) % job->edges);
        bool same_mark = job->edge[e].mark == job->edge[edge].mark;
        if (e != edge && job->edge[e].cost == job->edge[edge].cost && (any_mark || same_mark))
            return e;
    }
    return edge;
}

static void spare_like(const struct given *given, struct answer *answer)
{
    struct pair *pair = pick_pair(&answer->matching);

    if (answer->matching.pairs > 0)
        pair->spare = edge_like(given->job, pair->spare);
}

static void tree_like(const struct given *given, struct answer *answer)
{
    struct pair *pair = pick_pair(&answer->matching);

    if (answer->matching.pairs > 0)
        pair->tree = edge_like(given->job, pair->tree);
}

static void pair_turned(const struct given *given, struct answer *answer)
{
    struct pair *pair = pick_pair(&answer->matching);

    (void)given;
    *pair = (struct pair){pair->spare, pair->tree};
}

static void pair_long(const struct given *given, struct answer *answer)
{
    (void)given;
    pick_pair(&answer->matching)->spare += (uint32_t)1 << (14 + pick(8));
}

static void pair_past(const struct given *given, struct answer *answer)
{
    uint32_t edges = (uint32_t)given->job->edges;

    answer->matching.pair[answer->matching.pairs++] = (struct pair){edges, edges + 1};
}

static void pairs_twice(const struct given *given, struct answer *answer)
{
    struct matching *matching = &answer->matching;

    (void)given;
    for (size_t i = matching->pairs; i > 0; i--)
        matching->pair[2 * i - 1] = matching->pair[2 * i - 2] = matching->pair[i - 1];
    matching->pairs *= 2;
}

static bool is_paired(const struct matching *matching, uint32_t edge)
{
    for (size_t i = 0; i < matching->pairs; i++)
        if (matching->pair[i].tree == edge || matching->pair[i].spare == edge)
            return true;
    return false;
}

static void insert_pair(struct matching *matching, struct pair pair)
{
    size_t i = matching->pairs++;

    for (; i > 0 && matching->pair[i - 1].tree > pair.tree; i--)
        matching->pair[i] = matching->pair[i - 1];
    matching->pair[i] = pair;
}

/* A pair of a free tree edge and another free edge, of the same old cost if there are such: the weight stays. */
static void pair_added(const struct given *given, struct answer *answer)
{
    const struct job *job = given->job;
    struct pair added = {NONE, NONE};

    for (uint32_t t = 0; t < job->edges; t++) {
        if (job->edge[t].mark != TREE || is_paired(&answer->matching, t))
            continue;
        for (uint32_t s = 0; s < job->edges; s++) {
            if (job->edge[s].mark == TREE || is_paired(&answer->matching, s))
                continue;
            if (added.tree == NONE || (job->edge[t].cost == job->edge[s].cost && pick(2) == 0))
                added = (struct pair){t, s};
        }
    }
    if (added.tree != NONE)
        insert_pair(&answer->matching, added);
}

typedef void change(const struct given *given, struct answer *answer);

static change *const changes[] = {
    steps_more,    steps_fewer,   steps_long,      cost_changed,  cost_and_steps_changed, cost_long,
    costs_highest, costs_between, costs_old,       costs_old_alone, costs_level,          pairs_other,
    pairs_and_costs_other, pairs_none, pair_dropped, pairs_exchanged, spares_exchanged,   spare_like,
    tree_like,     pair_turned,   pair_long,       pair_past,     pairs_twice,            pair_added,
    unplugged_moved, unplugged_lowest, all_plugged,
};

/* Bytes. */

static size_t no_bytes(const struct given *given, uint8_t *to)
{
    (void)given;
    (void)to;
    return 0;
}

static size_t last_byte_dropped(const struct given *given, uint8_t *to)
{
    memcpy(to, given->frame, given->length - 1);
    return given->length - 1;
}

static size_t byte_appended(const struct given *given, uint8_t *to)
{
    memcpy(to, given->frame, given->length);
    to[given->length] = (uint8_t)pick(3);
    return given->length + 1;
}

static size_t replaced(const struct given *given, size_t place, bool longer, int32_t change, uint8_t *to)
{
    static struct numbers numbers;
    uint8_t part[8];
    size_t part_length;

    divide(given->frame, given->length, STEP_BYTES, &numbers);
    part_length = put_number(part, numbers.value[place] + (uint32_t)change);
    if (longer) {
        part[part_length - 1] |= 128;
        part[part_length++] = 0;
    }
    return put_instead(to, given->frame, given->length, numbers.start[place], numbers.start[place + 1], part, part_length);
}

static size_t number_longer(const struct given *given, uint8_t *to)
{
    size_t numbers = given->job->edges + 2 + 2 * given->answer.matching.pairs;

    return replaced(given, pick((uint32_t)numbers), true, 0, to);
}

static size_t steps_longer(const struct given *given, uint8_t *to)
{
    return replaced(given, 0, true, 0, to);
}

static size_t pair_count_changed(const struct given *given, uint8_t *to)
{
    bool less = given->answer.matching.pairs > 0 && pick(2) == 0;

    return replaced(given, given->job->edges + 1, false, less ? -1 : pick(2) == 0 ? 1 : 1 << 16, to);
}

static size_t pair_count_longer(const struct given *given, uint8_t *to)
{
    return replaced(given, given->job->edges + 1, true, 0, to);
}

static size_t damaged(const struct given *given, uint8_t *to)
{
    return damage_frame(given->frame, given->length, to);
}

typedef size_t damage(const struct given *given, uint8_t *to);

static damage *const damages[] = {
    no_bytes,     last_byte_dropped,  byte_appended,     number_longer,
    steps_longer, pair_count_changed, pair_count_longer, damaged,
};

enum { CHANGES = sizeof changes / sizeof changes[0], DAMAGES = sizeof damages / sizeof damages[0] };

const uint32_t alterations = CHANGES + DAMAGES;

size_t alter(uint32_t which, const struct given *given, uint8_t *to)
{
    static struct answer answer;

    if (which >= CHANGES)
        return damages[which - CHANGES](given, to);
    answer = given->answer;
    changes[which](given, &answer);
    return put_answer(to, given->job, &answer);
}
