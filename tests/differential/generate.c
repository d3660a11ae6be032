/* See generate.h. */
#include <string.h>

#include "generate.h"

static uint64_t state;

void seed(uint64_t with)
{
    state = with;
}

/* The generator splitmix64. */
uint32_t pick(uint32_t below)
{
    state += 0x9e3779b97f4a7c15;
    uint64_t z = state;
    z = (z ^ z >> 30) * 0xbf58476d1ce4e5b9;
    z = (z ^ z >> 27) * 0x94d049bb133111eb;
    z ^= z >> 31;
    return (uint32_t)((z >> 32) * below >> 32);
}

uint32_t pick_of(const uint32_t *value, size_t count)
{
    return value[pick((uint32_t)count)];
}

/* Jobs. Nodes are placed one after another and named at the end. */

enum tree_shape { ANY_TREE, PATH, STAR, DEEP, TREE_SHAPES };
enum spare_shape { ANY_SPARE, PARALLEL, SHORT, LONG, MIXED, SPARE_SHAPES };
enum cost_shape { ANY_COST, FEW_COSTS, ANOTHER_BYTE, LIMITS, FALLING, TWO_COSTS, COST_SHAPES };

static uint32_t parent_place(enum tree_shape shape, uint32_t place)
{
    switch (shape) {
    case PATH:
        return place - 1;
    case STAR:
        return 0;
    case DEEP:
        return place - 1 - pick(place < 3 ? place : 3);
    default:
        return pick(place);
    }
}

static void any_ends(uint32_t nodes, struct edge *edge)
{
    edge->end1 = pick(nodes);
    edge->end2 = (edge->end1 + 1 + pick(nodes - 1)) % nodes;
}

static void spare_ends(const struct job *job, enum spare_shape shape, struct edge *edge)
{
    uint32_t nodes = job->nodes;

    switch (shape) {
    case PARALLEL:
        *edge = job->edge[pick((uint32_t)job->edges)];
        break;
    case SHORT:
        edge->end1 = pick(nodes - 1);
        edge->end2 = nodes - edge->end1 > 2 ? edge->end1 + 1 + pick(2) : edge->end1 + 1;
        break;
    case LONG:
        edge->end1 = pick(1 + nodes / 4);
        edge->end2 = nodes - 1 - pick(1 + nodes / 4);
        break;
    default:
        any_ends(nodes, edge);
    }
}

struct cost_range {
    enum cost_shape shape;
    uint32_t base, top;
};

static struct cost_range pick_costs(void)
{
    struct cost_range range = {(enum cost_shape)pick(COST_SHAPES), 0, 0};

    range.top = PICK_OF(127, 16383, 16383, 16384, COST_MOST, COST_MOST);
    if (range.shape == FEW_COSTS)
        range.top = PICK_OF(0, 1, 2, 3, 10);
    if (range.shape == TWO_COSTS)
        range.top = PICK_OF(0, 1, 2, 3, 10, 16384, COST_MOST);
    if (range.shape == ANOTHER_BYTE) {
        range.top = PICK_OF(2, 4, 100);
        range.base = PICK_OF(124, 127, 128, 16383 - 100, 16382, 16384, COST_MOST - 100);
    }
    if (range.shape == FALLING)
        range.top = PICK_OF(1, 2, 5, 300, 16383, COST_MOST);
    return range;
}

static uint32_t pick_cost(const struct cost_range *range, uint32_t mark)
{
    switch (range->shape) {
    case LIMITS:
        return PICK_OF(0, 0, 1, range->top - 1, range->top, range->top);
    case FALLING:
        return mark == TREE ? range->top - pick(range->top / 2 + 1) : pick(range->top / 2 + 1);
    case TWO_COSTS:
        return mark == TREE ? range->top : 0;
    default:
        return range->base + pick(range->top + 1);
    }
}

static void swap_edges(struct job *job, size_t one, size_t other)
{
    struct edge edge = job->edge[one];

    job->edge[one] = job->edge[other];
    job->edge[other] = edge;
}

/* Leaves tree edges first, puts them last, or shuffles all. */
static void order_edges(struct job *job)
{
    uint32_t order = pick(3);

    for (size_t e = 0; order == 1 && e < job->edges / 2; e++)
        swap_edges(job, e, job->edges - 1 - e);
    for (size_t e = job->edges; order == 2 && e > 1; e--)
        swap_edges(job, e - 1, pick((uint32_t)e));
}

static void name_nodes(struct job *job)
{
    uint32_t name[NODES_MOST];

    for (uint32_t v = 0; v < job->nodes; v++)
        name[v] = v;
    for (uint32_t v = job->nodes; v > 1; v--) {
        uint32_t other = pick(v), named = name[other];
        name[other] = name[v - 1];
        name[v - 1] = named;
    }
    for (size_t e = 0; e < job->edges; e++) {
        struct edge *edge = &job->edge[e];
        uint32_t one = name[edge->end1], other = name[edge->end2];
        bool turned = pick(2) == 1;
        edge->end1 = turned ? other : one;
        edge->end2 = turned ? one : other;
    }
}

static size_t pick_spares(size_t room, bool full)
{
    uint32_t one = pick((uint32_t)room + 1), other = pick((uint32_t)room + 1);

    return full ? room : one > other ? one : other;
}

/* One in so many of the edges besides the tree is unplugged; none if it is 0. */
static uint32_t pick_mark(uint32_t unplugged_in)
{
    return unplugged_in > 0 && pick(unplugged_in) == 0 ? UNPLUGGED : SPARE;
}

/* An unplugged edge has a cost to keep, not 0. */
static uint32_t pick_other_cost(const struct cost_range *range, uint32_t mark)
{
    uint32_t cost = pick_cost(range, mark);

    return mark == UNPLUGGED && cost == 0 ? 1 : cost;
}

void random_job(struct job *job, uint32_t nodes_most, size_t edges_most, bool full)
{
    struct cost_range costs = pick_costs();
    enum tree_shape tree_shape = (enum tree_shape)pick(TREE_SHAPES);
    enum spare_shape spare_shape = (enum spare_shape)pick(SPARE_SHAPES);
    uint32_t unplugged_in = PICK_OF(0, 0, 0, 2, 3, 4);

    job->nodes = full ? nodes_most : 1 + pick(nodes_most);
    job->edges = 0;
    for (uint32_t place = 1; place < job->nodes; place++)
        job->edge[job->edges++] = (struct edge){parent_place(tree_shape, place), place, pick_cost(&costs, TREE), TREE};
    size_t spares = job->nodes == 1 ? 0 : pick_spares(edges_most - job->edges, full);
    for (; spares > 0; spares--) {
        struct edge *edge = &job->edge[job->edges];
        spare_ends(job, spare_shape == MIXED ? (enum spare_shape)pick(MIXED) : spare_shape, edge);
        edge->mark = pick_mark(unplugged_in);
        edge->cost = pick_other_cost(&costs, edge->mark);
        job->edges++;
    }
    order_edges(job);
    if (pick(4) > 0)
        name_nodes(job);
}

/* The jobs of so many nodes whose edges from e on are still open. */
static void each_edge(struct job *job, size_t e, job_visit *visit)
{
    if (e == job->edges) {
        visit(job);
        return;
    }
    for (uint32_t choice = 0; choice < 2 * MARKS * job->nodes * job->nodes; choice++) {
        uint32_t ends = choice / (2 * MARKS);
        job->edge[e] = (struct edge){ends % job->nodes, ends / job->nodes, choice / MARKS % 2, choice % MARKS};
        each_edge(job, e + 1, visit);
    }
}

void each_small_job(job_visit *visit)
{
    static struct job job;

    for (job.nodes = 1; job.nodes <= 3; job.nodes++)
        for (job.edges = 0; job.edges <= 3; job.edges++)
            each_edge(&job, 0, visit);
}

/* Damage. */

static void swap_marks(struct edge *one, struct edge *other)
{
    uint32_t mark = one->mark;

    one->mark = other->mark;
    other->mark = mark;
}

static uint32_t *pick_end(struct edge *edge)
{
    return pick(2) == 0 ? &edge->end1 : &edge->end2;
}

/* Where numbers get another byte, and numbers that end in the bits of a smaller one. */
static uint32_t long_number(uint32_t value)
{
    return PICK_OF(16383, 16384, 16384 + value, 65536 + value, COST_MOST, COST_MOST + 1);
}

static void damage_edge(struct job *job, struct edge *edge)
{
    switch (pick(7)) {
    case 0:
        edge->end1 = edge->end2;
        break;
    case 1:
        *pick_end(edge) = PICK_OF(job->nodes, job->nodes + 1, NODES_MOST, 256, long_number(pick(job->nodes)));
        break;
    case 2:
        *pick_end(edge) = pick(job->nodes);
        break;
    case 3:
        edge->mark = PICK_OF(3, 4, 128, 129, 130, 256, 257, 258, long_number(edge->mark));
        break;
    case 4:
        edge->mark = (edge->mark + 1 + pick(2)) % MARKS;
        break;
    case 5:
        edge->cost = long_number(edge->cost);
        break;
    default:
        swap_marks(edge, &job->edge[pick((uint32_t)job->edges)]);
    }
}

void damage_job(struct job *job)
{
    if (job->edges == 0 || pick(12) == 0)
        job->nodes = PICK_OF(0, job->nodes + 1, job->nodes - 1, 64, 65, 128, long_number(job->nodes));
    else
        damage_edge(job, &job->edge[pick((uint32_t)job->edges)]);
}

static uint8_t odd_byte(void)
{
    return (uint8_t)PICK_OF(0, 1, 2, 3, 4, 64, 65, 127, 128, 129, 255, pick(256));
}

static size_t damage_byte(const uint8_t *frame, size_t length, uint8_t *to)
{
    size_t place = pick((uint32_t)length);
    uint8_t byte = odd_byte(), flipped = frame[place] ^ (uint8_t)(1 << pick(8));

    switch (pick(5)) {
    case 0:
        return put_instead(to, frame, length, place, place + 1, &flipped, 1);
    case 1:
        return put_instead(to, frame, length, place, place + 1, &byte, 1);
    case 2:
        return put_instead(to, frame, length, place, place + 1, &byte, 0);
    case 3:
        return put_instead(to, frame, length, place, place, &byte, 1);
    default:
        return put_instead(to, frame, length, place, length, &byte, 0);
    }
}

size_t put_longer(uint8_t *to, uint32_t value, uint32_t groups)
{
    size_t length = put_number(to, value);

    for (; groups > 0; groups--) {
        to[length - 1] |= 128;
        to[length++] = 0;
    }
    return length;
}

static size_t odd_number(uint8_t *to, uint32_t value)
{
    switch (pick(4)) {
    case 0:
        return put_longer(to, value, 1 + pick(2));
    case 1:
        return put_number(to, value + PICK_OF(16384, 65536, 1 << 21, 1 << 28));
    case 2:
        return put_number(to, PICK_OF(0, 1, 2, 3, 63, 64, 65, 127, 128, 255, 256, 257, 16383, 16384, COST_MOST, COST_MOST + 1));
    default:
        return 0;
    }
}

static size_t damage_number(const uint8_t *frame, size_t length, const struct numbers *numbers, uint8_t *to)
{
    size_t kept = numbers->count < NUMBERS_MOST ? numbers->count : NUMBERS_MOST;
    size_t place = pick(3) == 0 ? pick(2) % kept : pick((uint32_t)kept);
    uint8_t part[DAMAGE_MOST];
    size_t part_length = odd_number(part, numbers->value[place]);

    return put_instead(to, frame, length, numbers->start[place], numbers->start[place + 1], part, part_length);
}

static size_t append_bytes(const uint8_t *frame, size_t length, uint8_t *to)
{
    memcpy(to, frame, length);
    for (uint32_t more = 1 + pick(5); more > 0; more--)
        to[length++] = odd_byte();
    return length;
}

size_t damage_frame(const uint8_t *frame, size_t length, uint8_t *to)
{
    static struct numbers numbers;
    uint32_t kind = pick(5);

    divide(frame, length, STEP_BYTES, &numbers);
    if (length == 0 || kind == 0)
        return append_bytes(frame, length, to);
    if (numbers.count == 0 || kind == 1)
        return damage_byte(frame, length, to);
    return damage_number(frame, length, &numbers, to);
}

size_t random_bytes(uint8_t *to, uint32_t length_most)
{
    size_t length = pick(length_most + 1);
    uint32_t kind = pick(3);

    for (size_t i = 0; i < length; i++)
        to[i] = kind == 0 ? (uint8_t)pick(256) : kind == 1 ? (uint8_t)pick(4) : odd_byte();
    return length;
}
