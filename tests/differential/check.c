/* See check.h. */
#include <string.h>

#include "alter.h"
#include "check.h"
#include "exhaustive.h"
#include "generate.h"
#include "lend.h"
#include "lists.h"
#include "movers.h"
#include "readers.h"
#include "replays.h"

enum { ALTERED = 5, READ_IN = 3, FEW_STEPS = 4, SEARCHED_EDGES = 5, ALL_LINKS = 32 };

struct counts counts;
bool thorough;

/* The reference's word on the job lent. */
static struct numbers numbers;
static struct job job;
static struct solution solution;
static int refusal;
/* The library's answer, once it is held to that word; no bytes if the job is refused. */
static struct given given = {.job = &job, .solution = &solution};

static int32_t call_answer(uint8_t *area, size_t area_length, size_t *written)
{
    return ist_answer(lent.job, lent.job_length, area, area_length, written);
}

static const struct writer answer_writer = {"ist_answer", call_answer};

/* The answer's contents are the solution's; its pairs are any that prove them. */
static void check_contents(void)
{
    static struct numbers answer;

    divide(given.frame, given.length, STEP_BYTES, &answer);
    if (!read_answer(&job, &answer, &given.answer))
        differ("ist_answer writes what is no answer frame");
    expect("steps", given.answer.steps, solution.steps);
    for (size_t e = 0; e < job.edges; e++)
        if (given.answer.cost[e] != solution.low[e])
            differ("link %zu gets cost %d, wanted %d", e, given.answer.cost[e], solution.low[e]);
    if (!judge_answer(&job, &answer))
        differ("ist_answer's pairs are no pairing that weighs the steps");
    if (given.length > IST_ANSWER_MOST)
        differ("ist_answer writes %zu bytes", given.length);
}

static void check_answer(void)
{
    int32_t got = write_once(&answer_writer, given.frame, &given.length);

    expect("ist_answer", got, refusal);
    lend_answer(given.frame, given.length);
    if (refusal == 0)
        check_contents();
    check_areas(&answer_writer, refusal, given.frame, given.length);
}

static int32_t verdict(bool yes)
{
    return refusal != 0 ? refusal : yes ? IST_OK : IST_NO;
}

static void check_judge(void)
{
    int32_t cost[EDGES_MOST];
    bool cheapest = false;

    if (refusal == 0) {
        old_costs(&job, cost);
        cheapest = is_cheapest(&job, cost);
        counts.cheapest += cheapest;
    }
    expect("ist_judge", ist_judge(lent.job, lent.job_length), verdict(cheapest));
    check_list_judge(verdict(cheapest));
}

/* A found part is the number `first` and those behind it up to `end`, or empty. */
static void expect_part(const char *name, uint32_t link, size_t offset, size_t length, const struct numbers *in,
                        size_t first, size_t end)
{
    size_t wanted = first == end ? 0 : in->start[first];
    size_t wanted_length = first == end ? 0 : in->start[end] - in->start[first];

    if (offset != wanted || length != wanted_length)
        differ("%s of %u: offset %zu length %zu, wanted %zu and %zu", name, (unsigned)link, offset, length, wanted,
               wanted_length);
    counts.finds++;
}

static bool has_link(uint32_t link)
{
    return refusal == 0 && link < job.edges;
}

static void check_find_link(uint32_t link)
{
    size_t offset = SIZE_MAX, length = SIZE_MAX, first = 2 + 4 * (size_t)link;

    ist_find_link(lent.job, lent.job_length, link, &offset, &length);
    expect_part("ist_find_link", link, offset, length, &numbers, first, has_link(link) ? first + 4 : first);
}

static void check_find_cost(uint32_t link, const struct numbers *answer, bool yes)
{
    size_t offset = SIZE_MAX, length = SIZE_MAX, first = 1 + (size_t)link, end = has_link(link) && yes ? first + 1 : first;

    ist_find_cost(lent.job, lent.job_length, lent.answer, lent.answer_length, link, &offset, &length);
    expect_part("ist_find_cost", link, offset, length, answer, first, end);
    offset = length = SIZE_MAX;
    if (find_list_cost(link, &offset, &length))
        expect_part("ist_find_cost_list", link, offset, length, answer, first, end);
}

/* Asks both finders for every link, or for some of many, and for numbers that are no link's. */
static void check_finders(void)
{
    static struct numbers answer;
    uint32_t edges = refusal == 0 ? (uint32_t)job.edges : 2;
    uint32_t stride = edges <= ALL_LINKS || thorough || pick(16) == 0 ? 1 : 1 + pick(edges / 4);
    const uint32_t past[] = {edges, edges + 1, edges + 255, 256, 65536, (uint32_t)1 << 31, UINT32_MAX};

    lend_answer(given.frame, given.length);
    divide(given.frame, given.length, STEP_BYTES, &answer);
    for (uint32_t link = pick(stride); link < edges; link += stride) {
        check_find_link(link);
        check_find_cost(link, &answer, true);
    }
    for (size_t i = 0; i < sizeof past / sizeof past[0]; i++) {
        check_find_link(past[i]);
        check_find_cost(past[i], &answer, true);
    }
}

/* Reads the answer frame lent. */
static void check_read_offer(const struct numbers *answer, bool yes)
{
    static struct answer contents;

    if (yes)
        read_answer(&job, answer, &contents);
    check_read_answer(verdict(yes), refusal == 0 ? job.edges : 0, &contents);
}

/* Holds the judge of answers, and a cost found by its word, to the reference's. */
static void check_offer(const uint8_t *frame, size_t length)
{
    static struct numbers answer;

    lend_answer(frame, length);
    divide(frame, length, STEP_BYTES, &answer);
    bool yes = refusal == 0 && judge_answer(&job, &answer);
    expect("ist_judge_answer", ist_judge_answer(lent.job, lent.job_length, lent.answer, lent.answer_length), verdict(yes));
    check_list_offer(verdict(yes));
    check_find_cost(pick(refusal == 0 ? (uint32_t)job.edges + 1 : 2), &answer, yes);
    if (thorough || pick(READ_IN) == 0)
        check_read_offer(&answer, yes);
    counts.offers_yes += yes;
    counts.offers_no += !yes;
}

static void offer_alteration(uint32_t which)
{
    static uint8_t altered[ANSWER_ROOM];
    size_t length = alter(which, &given, altered);

    check_offer(altered, length);
}

/* The library's answer, answers altered from it, and the answer to an earlier job. */
static void check_offers(void)
{
    static uint8_t earlier[ANSWER_ROOM];
    static size_t earlier_length;

    check_offer(earlier, earlier_length);
    if (refusal != 0)
        return;
    check_offer(given.frame, given.length);
    for (uint32_t i = 0; i < (thorough ? alterations : ALTERED); i++)
        offer_alteration(thorough ? i : pick(alterations));
    memcpy(earlier, given.frame, given.length);
    earlier_length = given.length;
}

/* The steps and costs, found again by trying everything, and every best matching offered. */
static void check_by_search(void)
{
    static struct search search;
    static struct answer answer;
    static uint8_t frame[ANSWER_ROOM];

    search_all(&job, &search);
    expect("steps by search", given.answer.steps, search.steps);
    answer = given.answer;
    for (size_t e = 0; e < job.edges; e++)
        expect("cost by search", given.answer.cost[e], search.low[e]);
    for (size_t i = 0; i < search.matchings; i++) {
        answer.matching = search.matching[i];
        check_offer(frame, put_answer(frame, &job, &answer));
    }
    counts.searched++;
}

static void count_frame(void)
{
    counts.frames++;
    counts.refused[refusal]++;
    if (refusal != 0)
        return;
    counts.with_steps += solution.steps > 0;
    counts.with_unplugged += has_unplugged(&job);
    counts.steps_most = solution.steps > counts.steps_most ? solution.steps : counts.steps_most;
    counts.answer_longest = given.length > counts.answer_longest ? given.length : counts.answer_longest;
}

/* All checks of the frame lent, and of the links if they are. */
static void check_lent(void)
{
    refusal = read_job(&numbers, &job);
    if (refusal == 0)
        solve(&job, &solution);
    check_answer();
    check_judge();
    check_read_job(refusal, &job);
    check_finders();
    check_offers();
    check_list_writers(refusal, given.frame, given.length);
    check_moves(refusal, &given);
    check_replays(refusal, &given);
    if (refusal == 0 && job.edges <= SEARCHED_EDGES && solution.steps <= FEW_STEPS && (thorough || pick(4) == 0))
        check_by_search();
    count_frame();
}

void check_frame(const uint8_t *frame, size_t length)
{
    lend_job(frame, length);
    divide(frame, length, NUMBER_BYTES, &numbers);
    lend_records(&numbers);
    check_lent();
    if (memcmp(lent.job, frame, length) != 0)
        differ("the job frame was changed");
}

void check_list(uint32_t nodes, const struct edge *edge, size_t count)
{
    static uint8_t frame[JOB_ROOM];
    size_t length = put_edges(frame, nodes, edge, count);

    lend_job(frame, length);
    divide(frame, length, NUMBER_BYTES, &numbers);
    lend_edges(nodes, edge, count);
    check_lent();
}

void expect_answer(int wanted, const uint8_t *answer, size_t length)
{
    expect("the row's refusal", refusal, wanted);
    if (given.length != length || memcmp(given.frame, answer, length) != 0)
        differ("the row's answer has other bytes");
}
