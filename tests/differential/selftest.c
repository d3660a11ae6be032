/* Holds the reference to document 01's rows and to trying everything, and sheets and costs to each other, without the library;
 * and the logs tried must tell every wrong replay from the right one.
 *
 * Run: selftest [COUNT] [SEED]    COUNT random jobs (default 20000) besides the rows and all small jobs. */
#include <stdio.h>
#include <stdlib.h>
#include <string.h>

#include "exhaustive.h"
#include "generate.h"
#include "mistakes.h"
#include "packets.h"
#include "rows.h"
#include "vary.h"

static struct job job;
static struct solution solution;
static struct search search;
static struct trees trees;
static size_t jobs_searched, jobs_proved, jobs_unplugged, choices_judged, lists_judged, sheets_applied;
static size_t logs_replayed, logs_judged, mistakes_found[MISTAKES];

static void require(bool holds, const char *what)
{
    uint8_t frame[4 * NUMBERS_MOST];
    size_t length = put_job(frame, &job);

    if (holds)
        return;
    printf("different: %s\nframe:", what);
    for (size_t i = 0; i < length; i++)
        printf(" %02x", frame[i]);
    printf("\n");
    exit(1);
}

static bool judged_yes(const struct answer *answer)
{
    static struct numbers numbers;
    static uint8_t frame[ANSWER_ROOM];

    divide(frame, put_answer(frame, &job, answer), STEP_BYTES, &numbers);
    return judge_answer(&job, &numbers);
}

/* Are these costs judged best with the solution's matching? */
static bool judged_best(const int32_t *cost)
{
    static struct answer answer;

    answer.steps = solution.steps;
    memcpy(answer.cost, cost, job.edges * sizeof cost[0]);
    answer.matching = solution.matching;
    return judged_yes(&answer);
}

static void judge_choice(const int32_t *cost, void *context)
{
    (void)context;
    for (size_t e = 0; e < job.edges; e++)
        if (cost[e] < 0 || cost[e] > COST_MOST)
            return;
    require(judged_best(cost) == is_cheapest_of(&job, &trees, cost), "the judge of answers and all spanning trees");
    choices_judged++;
}

static bool is_listed(const struct matching *matching)
{
    for (size_t i = 0; i < search.matchings; i++)
        if (search.matching[i].pairs == matching->pairs &&
            memcmp(search.matching[i].pair, matching->pair, matching->pairs * sizeof matching->pair[0]) == 0)
            return true;
    return false;
}

/* Every list of at most so many more pairs, of any numbers up to the link count, is judged yes exactly if it was found. */
static void judge_lists(struct answer *answer, size_t more)
{
    struct matching *matching = &answer->matching;

    require(judged_yes(answer) == is_listed(matching), "the judge of answers and all matchings");
    lists_judged++;
    for (uint32_t tree = 0; more > 0 && tree <= job.edges; tree++)
        for (uint32_t spare = 0; spare <= job.edges; spare++) {
            matching->pair[matching->pairs++] = (struct pair){tree, spare};
            judge_lists(answer, more - 1);
            matching->pairs--;
        }
}

static void judge_pairs(void)
{
    static struct answer answer;

    answer.steps = solution.steps;
    memcpy(answer.cost, solution.low, sizeof answer.cost);
    judge_lists(&answer, 2);
}

static void check_cheapest(void)
{
    int32_t cost[EDGES_MOST];

    old_costs(&job, cost);
    require(is_cheapest(&job, cost) == is_cheapest_of(&job, &trees, cost), "the judge of trees and all spanning trees");
    require(is_cheapest(&job, cost) == (solution.steps == 0), "the judge of trees and the steps");
    for (size_t e = 0; e < job.edges; e++)
        cost[e] = (int32_t)pick(5) - 2;
    require(is_cheapest(&job, cost) == is_cheapest_of(&job, &trees, cost), "cheapest with negative costs");
}

/* The solution of a job with few edges and steps is what trying everything finds. */
static void check_by_search(void)
{
    size_t bytes = job.edges * sizeof solution.low[0];

    find_trees(&job, &trees);
    search_all(&job, &search);
    require(solution.steps == search.steps, "steps");
    require(memcmp(solution.low, search.low, bytes) == 0, "lowest costs");
    require(memcmp(solution.high, search.high, bytes) == 0, "highest costs");
    require(search.matchings == MATCHINGS_MOST || is_listed(&solution.matching), "matching");
    check_cheapest();
    each_choice(&job, solution.steps, judge_choice, NULL);
    if (job.edges <= 4)
        judge_pairs();
    jobs_searched++;
}

/* Unplugged edges keep their costs; an answer that moves one by a step, and counts it, is judged no. */
static void check_unplugged(void)
{
    static struct answer answer;

    answer.steps = solution.steps + 1;
    memcpy(answer.cost, solution.low, sizeof answer.cost);
    answer.matching = solution.matching;
    for (size_t e = 0; e < job.edges; e++) {
        int32_t old = (int32_t)job.edge[e].cost;
        if (job.edge[e].mark != UNPLUGGED)
            continue;
        require(solution.low[e] == old && solution.high[e] == old, "the cost of an unplugged edge");
        answer.cost[e] = old == COST_MOST ? old - 1 : old + 1;
        require(!judged_yes(&answer), "the judge of answers says no where an unplugged edge moves");
        answer.cost[e] = old;
    }
    jobs_unplugged += has_unplugged(&job);
}

/* The matching proves the costs best: its weight is their steps. */
static void check_by_proof(void)
{
    require(weight(&job, &solution.matching) == (int64_t)solution.steps, "the matching's weight");
    require(judged_best(solution.low), "the judge of answers says yes to the lowest costs");
    require(judged_best(solution.high), "the judge of answers says yes to the highest costs");
    jobs_proved++;
}

static void check_round_trip(void)
{
    static struct numbers numbers;
    static struct job again;
    uint8_t frame[2 * NUMBERS_MOST];

    divide(frame, put_job(frame, &job), NUMBER_BYTES, &numbers);
    require(read_job(&numbers, &again) == 0, "the job's frame is accepted");
    require(again.nodes == job.nodes && again.edges == job.edges &&
                memcmp(again.edge, job.edge, job.edges * sizeof job.edge[0]) == 0,
            "the job's frame reads as the job");
}

static void check_costs(void)
{
    static struct sheet sheet, again;
    static uint8_t bytes[SHEET_ROOM];
    static int32_t cost[EDGES_MOST], back[EDGES_MOST];
    size_t size = job.edges * sizeof cost[0];

    random_costs(&job, cost);
    require(read_costs(&job, bytes, put_costs(bytes, cost, job.edges), back), "the costs are in form");
    require(memcmp(back, cost, size) == 0, "the costs read as the costs");
    make_sheet(&job, cost, &sheet);
    require(steps_of(&sheet) == (int64_t)deviation(&job, cost), "the sheet's changes");
    require(read_sheet(&job, bytes, put_sheet(bytes, &sheet), &again), "the costs' sheet is in form");
    require(apply_sheet(&job, &again, back) && memcmp(back, cost, size) == 0, "the costs' sheet leads to them");
}

static void check_sheet(void)
{
    static struct sheet sheet, again;
    static uint8_t bytes[SHEET_ROOM];
    static int32_t cost[EDGES_MOST];

    random_sheet(&job, &sheet);
    require(read_sheet(&job, bytes, put_sheet(bytes, &sheet), &again), "a sheet is in form");
    if (!apply_sheet(&job, &again, cost))
        return;
    make_sheet(&job, cost, &again);
    require(again.moves == sheet.moves && memcmp(again.move, sheet.move, sheet.moves * sizeof sheet.move[0]) == 0,
            "a sheet is that of the costs it leads to");
    sheets_applied++;
}

static bool same_replay(const struct replay *one, const struct replay *other)
{
    return one->first == other->first && memcmp(one->cost, other->cost, job.edges * sizeof one->cost[0]) == 0;
}

/* No log whose final costs make the tree cheapest is shorter than the steps; all spanning trees say the same of every packet. */
static void check_replay(const struct log *log, const struct replay *replay)
{
    static struct replay again;

    require(deviation(&job, replay->cost) <= log->packets, "a packet moves one cost by at most 1");
    require(replay->first >= solution.steps, "the packets of a log that makes the tree cheapest");
    require(!is_cheapest(&job, replay->cost) || log->packets >= solution.steps, "the packets of a log that ends cheapest");
    logs_replayed++;
    if (job.edges > 6)
        return;
    find_trees(&job, &trees);
    replay_log(&job, &trees, log, &again);
    require(same_replay(replay, &again), "the replay and all spanning trees");
    logs_judged++;
}

static void find_mistakes(const struct log *log, const struct replay *replay)
{
    static struct replay wrong;

    for (size_t i = 0; i < MISTAKES; i++) {
        replay_wrongly(i, &job, log, &wrong);
        mistakes_found[i] += !same_replay(replay, &wrong);
    }
}

/* A log in form, written and read again. */
static void check_log(const struct plan *plan)
{
    static struct log log, again;
    static struct replay replay;
    static uint8_t bytes[SHEET_ROOM];

    random_log(plan, &log);
    require(read_log(&job, bytes, put_log(bytes, &log), &again), "a log is in form");
    require(again.packets == log.packets && memcmp(again.packet, log.packet, log.packets * sizeof log.packet[0]) == 0,
            "a log reads as the log");
    replay_log(&job, NULL, &log, &replay);
    check_replay(&log, &replay);
    find_mistakes(&log, &replay);
    wrong_log(plan, &log);
    require(!read_log(&job, bytes, put_log(bytes, &log), &again), "a wrong log is refused");
}

/* The packets to best costs, in any order, make the tree cheapest with the last of them. */
static void check_settling(const struct plan *plan)
{
    static struct log log;
    static struct replay replay;

    if (solution.steps > plan->most)
        return;
    log.packets = 0;
    log_settling(plan, &log);
    replay_log(&job, NULL, &log, &replay);
    require(log.packets == solution.steps && replay.first == solution.steps, "the packets to best costs");
}

static void check_logs(void)
{
    struct plan plan = {&job, &solution, packets_for(&job)};

    check_settling(&plan);
    for (size_t i = 0; i < 3; i++)
        check_log(&plan);
}

static void check_job(void)
{
    check_round_trip();
    check_costs();
    check_sheet();
    solve(&job, &solution);
    check_by_proof();
    check_unplugged();
    check_logs();
    if (job.edges <= 6 && solution.steps <= 4)
        check_by_search();
}

static void check_small_job(const struct job *small)
{
    for (size_t e = 0; e < small->edges; e++)
        if (small->edge[e].end1 == small->edge[e].end2)
            return;
    if (!is_spanning(small))
        return;
    job = *small;
    check_job();
}

static void read_row(const char *text, int refusal)
{
    static struct numbers numbers;
    uint8_t frame[ROW_ROOM];

    divide(frame, from_hex(text, frame), NUMBER_BYTES, &numbers);
    require(read_job(&numbers, &job) == refusal, text);
    if (refusal == 0)
        solve(&job, &solution);
}

static void check_row(const struct row *row)
{
    static struct answer answer;
    uint8_t wanted[ROW_ROOM], written[ANSWER_ROOM];
    size_t length = from_hex(row->answer, wanted);

    read_row(row->job, row->refusal);
    if (row->refusal != 0)
        return;
    answer.steps = solution.steps;
    memcpy(answer.cost, solution.low, sizeof answer.cost);
    answer.matching = solution.matching;
    require(put_answer(written, &job, &answer) == length && memcmp(written, wanted, length) == 0, row->name);
    require(judged_yes(&answer), row->name);
}

/* The costs that a sheet leads to; false if it is refused. */
static bool apply_text(const char *text, uint8_t *to, size_t *length)
{
    static struct sheet sheet;
    static int32_t cost[EDGES_MOST];
    uint8_t bytes[ROW_ROOM];

    if (!read_sheet(&job, bytes, from_hex(text, bytes), &sheet) || !apply_sheet(&job, &sheet, cost))
        return false;
    *length = put_costs(to, cost, job.edges);
    return true;
}

/* The sheet of costs; false if they are refused. */
static bool make_text(const char *text, uint8_t *to, size_t *length)
{
    static struct sheet sheet;
    static int32_t cost[EDGES_MOST];
    uint8_t bytes[ROW_ROOM];

    if (!read_costs(&job, bytes, from_hex(text, bytes), cost))
        return false;
    make_sheet(&job, cost, &sheet);
    *length = put_sheet(to, &sheet);
    return true;
}

typedef bool from_text(const char *text, uint8_t *to, size_t *length);

/* One text, if it is there, makes the other, or is refused if that is not there. */
static void require_text(const char *name, from_text *make, const char *text, const char *wanted)
{
    uint8_t made[ROW_ROOM], bytes[ROW_ROOM];
    size_t length = 0;

    if (text == NULL)
        return;
    require(make(text, made, &length) == (wanted != NULL), name);
    if (wanted != NULL)
        require(from_hex(wanted, bytes) == length && memcmp(made, bytes, length) == 0, name);
}

static void check_sheet_row(const struct sheet_row *row)
{
    read_row(row->job, 0);
    require_text(row->name, apply_text, row->sheet, row->costs);
    require_text(row->name, make_text, row->costs, row->sheet);
}

static void check_log_row(const struct log_row *row)
{
    static struct log log;
    static struct replay replay;
    uint8_t bytes[ROW_ROOM], wanted[ROW_ROOM], costs[ROW_ROOM];

    read_row(row->job, 0);
    require(read_log(&job, bytes, from_hex(row->log, bytes), &log) == (row->costs != NULL), row->name);
    if (row->costs == NULL)
        return;
    replay_log(&job, NULL, &log, &replay);
    require(replay.first == (row->first < 0 ? NEVER : (size_t)row->first), row->name);
    size_t length = put_costs(costs, replay.cost, job.edges);
    require(from_hex(row->costs, wanted) == length && memcmp(costs, wanted, length) == 0, row->name);
    find_mistakes(&log, &replay);
}

static void check_thirteen(void)
{
    read_row(thirteen, 0);
    require(solution.steps == 13, "13 steps");
    for (size_t e = 0; e < job.edges; e++)
        require(solution.low[e] == 3, "all costs 3");
}

int main(int argc, char **argv)
{
    long count = argc > 1 ? strtol(argv[1], NULL, 10) : 20000;

    seed(argc > 2 ? strtoull(argv[2], NULL, 10) : 1);
    for (size_t i = 0; i < ROWS; i++)
        check_row(&rows[i]);
    for (size_t i = 0; i < SHEET_ROWS; i++)
        check_sheet_row(&sheet_rows[i]);
    for (size_t i = 0; i < LOG_ROWS; i++)
        check_log_row(&log_rows[i]);
    check_thirteen();
    each_small_job(check_small_job);
    for (long i = 0; i < count; i++) {
        bool large = i % 100 == 0;
        random_job(&job, large ? 64 : 5, large ? 256 : 6 + pick(6), large && pick(2) == 0);
        check_job();
    }
    for (size_t i = 0; i < MISTAKES; i++)
        require(mistakes_found[i] > 0, mistakes[i]);
    printf("selftest: %zu jobs proved by their matching, %zu of them searched whole, %zu with unplugged links, ", jobs_proved,
           jobs_searched, jobs_unplugged);
    printf("%zu costs and %zu lists of pairs judged, %zu sheets applied, ", choices_judged, lists_judged, sheets_applied);
    printf("%zu logs replayed, %zu of them by all spanning trees, %d mistakes found\n", logs_replayed, logs_judged, MISTAKES);
    return 0;
}
