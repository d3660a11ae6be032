/* See packets.h. */
#include "generate.h"
#include "packets.h"
#include "vary.h"

enum { WORK = 2000, LEAST_WORK = 24, FEW_PACKETS = 8 };

size_t packets_for(const struct job *job)
{
    return FEW_PACKETS + WORK / (LEAST_WORK + job->nodes * job->edges);
}

static void add(const struct plan *plan, struct log *log, size_t edge, uint32_t way)
{
    if (edge < plan->job->edges && log->packets < plan->most)
        log->packet[log->packets++] = (struct packet){(uint32_t)edge, way};
}

static uint32_t pick_edge(const struct plan *plan)
{
    return pick((uint32_t)plan->job->edges);
}

/* So many as are left of the plan, or fewer. */
static size_t pick_count(const struct plan *plan, const struct log *log)
{
    return pick((uint32_t)(plan->most - log->packets) + 1);
}

static void shuffle(struct log *log)
{
    for (size_t i = log->packets; i > 1; i--) {
        size_t other = pick((uint32_t)i);
        struct packet held = log->packet[other];
        log->packet[other] = log->packet[i - 1];
        log->packet[i - 1] = held;
    }
}

/* Kinds in form. Each adds to the log, which is empty. */

static void log_empty(const struct plan *plan, struct log *log)
{
    (void)plan;
    (void)log;
}

static void log_any(const struct plan *plan, struct log *log)
{
    for (size_t count = pick_count(plan, log); count > 0; count--)
        add(plan, log, pick_edge(plan), pick(2));
}

static void log_one_edge(const struct plan *plan, struct log *log)
{
    uint32_t edge = pick_edge(plan);

    for (size_t count = pick_count(plan, log); count > 0; count--)
        add(plan, log, edge, pick(2));
}

void log_settling(const struct plan *plan, struct log *log)
{
    const int32_t *best = pick(2) == 0 ? plan->solution->low : plan->solution->high;

    for (size_t e = 0; e < plan->job->edges; e++) {
        int32_t old = (int32_t)plan->job->edge[e].cost;
        for (int32_t cost = old; cost != best[e] && log->packets < plan->most; cost += best[e] > old ? 1 : -1)
            add(plan, log, e, best[e] > old);
    }
    shuffle(log);
}

/* With steps forth and back between. */
static void log_noisy(const struct plan *plan, struct log *log)
{
    log_settling(plan, log);
    for (size_t count = pick_count(plan, log) / 2; count > 0; count--) {
        uint32_t edge = pick_edge(plan);
        add(plan, log, edge, 0);
        add(plan, log, edge, 1);
    }
    shuffle(log);
}

/* Tree edges down and spares up, or the other way. */
static void add_drift(const struct plan *plan, struct log *log, bool settling)
{
    for (size_t count = pick_count(plan, log); count > 0; count--) {
        uint32_t edge = pick_edge(plan);
        add(plan, log, edge, (plan->job->edge[edge].mark != TREE) == settling);
    }
}

static void log_drifting(const struct plan *plan, struct log *log)
{
    add_drift(plan, log, true);
}

static void log_straying(const struct plan *plan, struct log *log)
{
    add_drift(plan, log, false);
}

static void log_past(const struct plan *plan, struct log *log)
{
    log_settling(plan, log);
    add_drift(plan, log, true);
}

/* Settled, and then packets taken back from the last on; some of them sent again. */
static void log_undone(const struct plan *plan, struct log *log)
{
    log_settling(plan, log);
    size_t settled = log->packets, undone = pick((uint32_t)settled + 1), again = pick((uint32_t)undone + 1);
    for (size_t i = settled; i > settled - undone; i--)
        add(plan, log, log->packet[i - 1].edge, 1 - log->packet[i - 1].way);
    for (size_t i = settled - undone; i < settled - undone + again; i++)
        add(plan, log, log->packet[i].edge, log->packet[i].way);
}

/* Unplugged edges, and in between one of any kind. */
static void log_unplugged(const struct plan *plan, struct log *log)
{
    for (size_t count = pick_count(plan, log); count > 0; count--) {
        uint32_t edge = pick_edge(plan);
        if (plan->job->edge[edge].mark == UNPLUGGED || pick(8) == 0)
            add(plan, log, edge, pick(2));
    }
}

static uint32_t from_end(uint32_t cost)
{
    return cost < COST_MOST - cost ? cost : COST_MOST - cost;
}

/* One edge of those near an end of the range: past it and back, again and again, and now and then another edge. */
static void log_hovering(const struct plan *plan, struct log *log)
{
    const struct edge *edges = plan->job->edge;
    uint32_t edge = pick_edge(plan), end;

    for (size_t tried = 0; tried < 8; tried++) {
        uint32_t other = pick_edge(plan);
        edge = from_end(edges[other].cost) < from_end(edges[edge].cost) ? other : edge;
    }
    end = edges[edge].cost > COST_MOST / 2;
    for (uint32_t run = from_end(edges[edge].cost) + 1 + pick(2); run > 0 && log->packets < plan->most; run--)
        add(plan, log, edge, end);
    for (size_t count = pick_count(plan, log); count > 0; count--)
        add(plan, log, pick(6) == 0 ? pick_edge(plan) : edge, pick(3) == 0 ? 1 - end : end);
}

typedef void log_kind(const struct plan *plan, struct log *log);

static log_kind *const kinds[] = {
    log_settling, log_noisy,    log_past,     log_undone,    log_drifting, log_straying,
    log_any,      log_one_edge, log_hovering, log_unplugged, log_empty,
};

enum { KINDS = sizeof kinds / sizeof kinds[0] };

static void fill_log(uint32_t kind, const struct plan *plan, struct log *log)
{
    log->packets = 0;
    if (plan->job->edges > 0)
        kinds[kind](plan, log);
}

void random_log(const struct plan *plan, struct log *log)
{
    fill_log(pick(KINDS), plan, log);
}

/* Logs that are wrong. */

static struct packet wrong_packet(const struct job *job)
{
    uint32_t edges = (uint32_t)job->edges, edge = pick(edges), way = pick(2);

    if (edges > 0 && pick(2) == 0)
        return (struct packet){edge, PICK_OF(2, 3, 127, 128, 256 + way, 16384 + way, 65536 + way, COST_MOST)};
    return (struct packet){
        PICK_OF(edges, edges + 1, edges + 127, 256 + edge, 16384 + edge, 65536 + edge, COST_MOST), way};
}

void wrong_log(const struct plan *plan, struct log *log)
{
    random_log(plan, log);
    size_t place = pick(2) == 0 ? log->packets : pick((uint32_t)log->packets + 1);
    for (size_t i = log->packets++; i > place; i--)
        log->packet[i] = log->packet[i - 1];
    log->packet[place] = wrong_packet(plan->job);
}

/* Settled, and then a packet that is none. */
static void wrong_when_settled(const struct plan *plan, struct log *log)
{
    log_settling(plan, log);
    log->packet[log->packets++] = (struct packet){(uint32_t)plan->job->edges, pick(2)};
}

static log_kind *const wrongs[] = {wrong_log, wrong_when_settled};

enum { WRONGS = sizeof wrongs / sizeof wrongs[0] };

const uint32_t log_variations = KINDS + WRONGS + SPOILS;

size_t vary_log(uint32_t which, const struct plan *plan, uint8_t *to)
{
    static struct log log;
    static uint8_t right[SHEET_ROOM];

    if (which < KINDS) {
        fill_log(which, plan, &log);
        return put_log(to, &log);
    }
    log.packets = 0;
    if (which < KINDS + WRONGS) {
        wrongs[which - KINDS](plan, &log);
        return put_log(to, &log);
    }
    random_log(plan, &log);
    return spoil_bytes(which - KINDS - WRONGS, right, put_log(right, &log), to);
}
