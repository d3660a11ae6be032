/* See replays.h. */
#include "check.h"
#include "generate.h"
#include "movers.h"
#include "packets.h"
#include "replays.h"
#include "sheets.h"

enum { TREES_EDGES = 8, TREES_IN = 8, TRIED = 2 };

/* After how many packets the tree is first cheapest, by the reference. */
static size_t first_wanted;

static int32_t call_replay(uint8_t *area, size_t area_length, size_t *written)
{
    size_t first = 0;
    int32_t word = ist_replay(lent.job, lent.job_length, lent.answer, lent.answer_length, area, area_length, written, &first);
    size_t wanted = word == IST_OK ? first_wanted : IST_NEVER;

    if (first != wanted)
        differ("ist_replay: %d and first %zu, wanted %zu", (int)word, first, wanted);
    return word;
}

static const struct writer replay_writer = {"ist_replay", call_replay};

/* All spanning trees say the same of every packet. */
static void check_by_trees(const struct job *job, const struct log *log)
{
    static struct trees trees;
    static struct replay replay;

    find_trees(job, &trees);
    replay_log(job, &trees, log, &replay);
    expect("first by all spanning trees", (int64_t)replay.first, (int64_t)first_wanted);
    counts.logs_by_trees++;
}

/* Up to there the packets are a log whose final costs make the tree cheapest: none is shorter than the answer's steps. */
static void check_first(uint32_t steps)
{
    if (first_wanted < steps)
        differ("cheapest after %zu packets, with %u steps", first_wanted, (unsigned)steps);
    counts.logs_at_start += first_wanted == 0;
    counts.logs_later += first_wanted != 0 && first_wanted != NEVER;
    counts.logs_never += first_wanted == NEVER;
    counts.logs_shortest += first_wanted != 0 && first_wanted == steps;
}

/* The bytes of the final costs. */
static size_t replay_right(const struct job *job, uint32_t steps, const struct log *log, uint8_t *to)
{
    static struct replay replay;

    replay_log(job, NULL, log, &replay);
    first_wanted = replay.first;
    check_first(steps);
    if (job->edges <= TREES_EDGES && (thorough || pick(TREES_IN) == 0))
        check_by_trees(job, log);
    counts.packets += log->packets;
    counts.packets_left += replay.left;
    counts.log_longest = log->packets > counts.log_longest ? log->packets : counts.log_longest;
    return put_costs(to, replay.cost, job->edges);
}

void check_log(int refusal, const struct job *job, uint32_t steps, const uint8_t *log, size_t length)
{
    static struct log contents;
    static uint8_t made[SHEET_ROOM];
    bool in_form = refusal == 0 && read_log(job, log, length, &contents);
    int32_t word = refusal != 0 ? refusal : in_form ? IST_OK : IST_REFUSED_LOG;
    size_t made_length = in_form ? replay_right(job, steps, &contents, made) : 0;

    hold_writer(&replay_writer, log, length, word, made, made_length);
    counts.logs_refused += word == IST_REFUSED_LOG;
    counts.logs_refused_with_job += refusal != 0;
}

void check_replays(int refusal, const struct given *given)
{
    static uint8_t log[SHEET_ROOM];
    struct plan plan = {given->job, given->solution, packets_for(given->job)};
    uint32_t tried = refusal != 0 ? 1 : thorough ? log_variations : TRIED;

    for (uint32_t i = 0; i < tried; i++) {
        size_t length = vary_log(tried == log_variations ? i : pick(log_variations), &plan, log);
        check_log(refusal, given->job, refusal == 0 ? given->answer.steps : 0, log, length);
    }
}
