/* See readers.h. Arrays are painted before each call; what the library must leave is held to the paint. */
#include <string.h>

#include "check.h"
#include "generate.h"
#include "lend.h"
#include "readers.h"

enum { ROOM = 4 * EDGES_MOST + 8, PAINT = 0xa5 };

/* The first `written` numbers are as wanted, and the others are paint. */
static void expect_numbers(const char *what, const uint32_t *got, const uint32_t *wanted, size_t written)
{
    static uint32_t paint[ROOM];

    memset(paint, PAINT, sizeof paint);
    if (memcmp(got, wanted, written * sizeof *got) != 0)
        differ("%s: other numbers", what);
    if (memcmp(got + written, paint, (ROOM - written) * sizeof *got) != 0)
        differ("%s: numbers changed behind the %zu written", what, written);
}

static void read_job_into(size_t room, int refusal, const struct job *job, const uint32_t *wanted)
{
    static uint32_t numbers[ROOM];
    uint32_t stations = UINT32_MAX;
    size_t count = SIZE_MAX, size = refusal == 0 ? 4 * job->edges : 0;
    int word = refusal != 0 ? refusal : room < size ? IST_REFUSED_AREA : IST_OK;

    memset(numbers, PAINT, sizeof numbers);
    expect("ist_read_job", ist_read_job(lent.job, lent.job_length, (ist_link *)(void *)numbers, room, &stations, &count), word);
    expect("its stations", stations, word == IST_OK ? job->nodes : 0);
    expect("its links", (int64_t)count, word == IST_OK ? (int64_t)job->edges : 0);
    expect_numbers("ist_read_job", numbers, wanted, word == IST_OK ? size : 0);
    counts.reads++;
}

void check_read_job(int refusal, const struct job *job)
{
    static uint32_t wanted[ROOM];
    size_t size = refusal == 0 ? 4 * job->edges : 0;

    for (size_t e = 0; 4 * e < size; e++)
        memcpy(wanted + 4 * e, &job->edge[e], 4 * sizeof *wanted);
    read_job_into(size, refusal, job, wanted);
    read_job_into(ROOM, refusal, job, wanted);
    if (size > 0)
        read_job_into(pick((uint32_t)size), refusal, job, wanted);
}

static void read_answer_into(size_t cost_room, size_t pair_room, int32_t word, size_t links, const struct answer *answer)
{
    static uint32_t costs[ROOM], pairs[ROOM], wanted_costs[ROOM], wanted_pairs[ROOM];
    uint32_t steps = UINT32_MAX;
    size_t cost_count = SIZE_MAX, pair_count = SIZE_MAX, listed = word == IST_YES ? answer->matching.pairs : 0;

    if (word == IST_YES && (cost_room < links || pair_room < 2 * listed))
        word = IST_REFUSED_AREA;
    bool read = word == IST_YES;
    for (size_t e = 0; read && e < links; e++)
        wanted_costs[e] = (uint32_t)answer->cost[e];
    for (size_t i = 0; read && i < listed; i++)
        memcpy(wanted_pairs + 2 * i, &answer->matching.pair[i], 2 * sizeof *wanted_pairs);
    memset(costs, PAINT, sizeof costs);
    memset(pairs, PAINT, sizeof pairs);
    expect("ist_read_answer",
           ist_read_answer(lent.job, lent.job_length, lent.answer, lent.answer_length, costs, cost_room, pairs, pair_room,
                           &steps, &cost_count, &pair_count),
           word);
    expect("its steps", steps, read ? answer->steps : 0);
    expect("its costs", (int64_t)cost_count, read ? (int64_t)links : 0);
    expect("its pairs", (int64_t)pair_count, read ? (int64_t)listed : 0);
    expect_numbers("costs of ist_read_answer", costs, wanted_costs, read ? links : 0);
    expect_numbers("pairs of ist_read_answer", pairs, wanted_pairs, read ? 2 * listed : 0);
    counts.reads++;
}

void check_read_answer(int32_t word, size_t links, const struct answer *answer)
{
    size_t listed = word == IST_YES ? answer->matching.pairs : 0;

    read_answer_into(links, 2 * listed, word, links, answer);
    if (word != IST_YES)
        return;
    read_answer_into(ROOM, ROOM, word, links, answer);
    if (links > 0)
        read_answer_into(pick((uint32_t)links), 2 * listed, word, links, answer);
    if (listed > 0)
        read_answer_into(links, pick(2 * (uint32_t)listed), word, links, answer);
}
