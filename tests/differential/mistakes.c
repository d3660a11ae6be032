/* See mistakes.h. */
#include "mistakes.h"

enum mistake {
    START_NOT_ASKED,
    LAST_NOT_FIRST,
    END_ONLY,
    NEVER_IS_NONE,
    COUNTED_FROM_ONE,
    STAYING_NOT_COUNTED,
    STOPS_WHEN_CHEAPEST,
    WAY_TURNED,
    BELOW_0,
    ABOVE_MOST,
    UNPLUGGED_STAYS,
    UNPLUGGED_JUDGED
};

const char *const mistakes[MISTAKES] = {
    [START_NOT_ASKED] = "the start is not asked",
    [LAST_NOT_FIRST] = "the last time cheapest for the first",
    [END_ONLY] = "only the end is asked",
    [NEVER_IS_NONE] = "never is told as 0",
    [COUNTED_FROM_ONE] = "packets are counted from 1",
    [STAYING_NOT_COUNTED] = "a packet that leaves a cost is not counted",
    [STOPS_WHEN_CHEAPEST] = "packets behind the first time cheapest are not heard",
    [WAY_TURNED] = "1 is down",
    [BELOW_0] = "a cost goes on below 0",
    [ABOVE_MOST] = "a cost goes on above 2,097,151",
    [UNPLUGGED_STAYS] = "an unplugged edge keeps its cost",
    [UNPLUGGED_JUDGED] = "unplugged edges are judged like spares",
};

static bool hear_wrongly(enum mistake mistake, const struct job *job, const struct packet *packet, int32_t *cost)
{
    bool up = (packet->way == 1) != (mistake == WAY_TURNED);
    int32_t moved = cost[packet->edge] + (up ? 1 : -1);

    if (moved < 0 && mistake != BELOW_0)
        return false;
    if (moved > COST_MOST && mistake != ABOVE_MOST)
        return false;
    if (mistake == UNPLUGGED_STAYS && job->edge[packet->edge].mark == UNPLUGGED)
        return false;
    cost[packet->edge] = moved;
    return true;
}

/* The job with all edges plugged. */
static const struct job *all_plugged(const struct job *job)
{
    static struct job plugged;

    plugged = *job;
    for (size_t e = 0; e < job->edges; e++)
        if (plugged.edge[e].mark == UNPLUGGED)
            plugged.edge[e].mark = SPARE;
    return &plugged;
}

static bool is_asked(enum mistake mistake, const struct log *log, size_t heard)
{
    return (heard > 0 || mistake != START_NOT_ASKED) && (heard == log->packets || mistake != END_ONLY);
}

static size_t told(enum mistake mistake, size_t first)
{
    if (first == NEVER)
        return mistake == NEVER_IS_NONE ? 0 : NEVER;
    return mistake == COUNTED_FROM_ONE && first > 0 ? first + 1 : first;
}

void replay_wrongly(size_t which, const struct job *job, const struct log *log, struct replay *replay)
{
    enum mistake mistake = (enum mistake)which;
    const struct job *judged = mistake == UNPLUGGED_JUDGED ? all_plugged(job) : job;
    size_t first = NEVER, counted = 0;

    old_costs(job, replay->cost);
    for (size_t heard = 0;; heard++) {
        bool open = first == NEVER || mistake == LAST_NOT_FIRST;
        if (open && is_asked(mistake, log, heard) && is_cheapest(judged, replay->cost))
            first = counted;
        if (heard == log->packets || (mistake == STOPS_WHEN_CHEAPEST && first != NEVER))
            break;
        counted += hear_wrongly(mistake, job, &log->packet[heard], replay->cost) || mistake != STAYING_NOT_COUNTED;
    }
    replay->first = told(mistake, first);
}
