/* Measures the library, the plain C version and LEMON on a file of jobs: each frame is preceded by its length in four bytes,
 * lowest first. Usage: bench check|time|library|plain|sheets|stack FILE
 * The library and plain C on a file of logs, which has a job frame, its packet log, the next job and so on, in the same way.
 * Usage: bench replay-check|replay-time|replay-library|replay-plain FILE */
#define _GNU_SOURCE
#include "../include/ist.h"
#include "lemon.h"
#include "plain.h"

#include <stdio.h>
#include <stdlib.h>
#include <string.h>
#include <time.h>
#include <ucontext.h>

typedef int32_t answer_function(const uint8_t *, size_t, uint8_t *, size_t, size_t *);
typedef int32_t replay_function(const uint8_t *, size_t, const uint8_t *, size_t, uint8_t *, size_t, size_t *, size_t *);

typedef struct {
    const uint8_t *bytes;
    size_t length;
} frame;

typedef struct {
    frame *frame;
    size_t count;
} jobs;

static void fail(const char *what, size_t job)
{
    fprintf(stderr, "job %zu: %s\n", job, what);
    exit(1);
}

/* Files of jobs. */

static uint8_t *read_file(const char *path, size_t *length)
{
    FILE *file = fopen(path, "rb");
    if (!file || fseek(file, 0, SEEK_END) != 0) {
        perror(path);
        exit(2);
    }
    *length = (size_t)ftell(file);
    rewind(file);
    uint8_t *bytes = malloc(*length + 1);
    if (!bytes || fread(bytes, 1, *length, file) != *length) {
        perror(path);
        exit(2);
    }
    fclose(file);
    return bytes;
}

static size_t frame_length(const uint8_t *at)
{
    return at[0] | (size_t)at[1] << 8 | (size_t)at[2] << 16 | (size_t)at[3] << 24;
}

static jobs read_jobs(const char *path)
{
    size_t length;
    const uint8_t *bytes = read_file(path, &length);
    jobs all = {malloc((length / 4 + 1) * sizeof(frame)), 0};
    for (size_t at = 0; at < length; at += 4 + frame_length(bytes + at)) {
        if (length - at < 4 || length - at - 4 < frame_length(bytes + at))
            fail("runs past the end of the file", all.count);
        all.frame[all.count++] = (frame){bytes + at + 4, frame_length(bytes + at)};
    }
    return all;
}

/* The check: refusals, steps and costs are the same. */

typedef struct {
    uint8_t area[IST_ANSWER_MOST];
    size_t length;
    int32_t refusal;
} reply;

static reply ask(answer_function *answer, frame job)
{
    reply r;
    r.refusal = answer(job.bytes, job.length, r.area, sizeof r.area, &r.length);
    return r;
}

/* The length of the first numbers of an answer. */
static size_t numbers_length(const reply *r, unsigned count)
{
    size_t at = 0;
    while (count > 0)
        count -= r->area[at++] < 128;
    return at;
}

static unsigned steps_of(const reply *r)
{
    unsigned steps = 0;
    for (size_t i = numbers_length(r, 1); i-- > 0;)
        steps = steps << 7 | (r->area[i] & 127);
    return steps;
}

static int same_costs(const reply *r, const reply *q, unsigned edges)
{
    size_t length = numbers_length(r, 1 + edges);
    return length == numbers_length(q, 1 + edges) && memcmp(r->area, q->area, length) == 0;
}

/* Is an area that is one byte too short refused and left as it is? */
static int refuses_short(answer_function *answer, frame job, size_t length)
{
    uint8_t area[IST_ANSWER_MOST] = {0}, untouched[IST_ANSWER_MOST] = {0};
    size_t written;
    return answer(job.bytes, job.length, area, length - 1, &written) == 7 && written == 0
        && memcmp(area, untouched, sizeof area) == 0;
}

static void check_accepted(frame job, size_t i, const plain_job *accepted, const reply *library, const reply *plain)
{
    if (!same_costs(library, plain, accepted->edges))
        fail("library and plain C give different costs", i);
    if (lemon_steps(accepted) != steps_of(library))
        fail("LEMON gives other steps", i);
    if (ist_judge_answer(job.bytes, job.length, plain->area, plain->length) != IST_OK)
        fail("plain C's answer is judged no", i);
    if (!refuses_short(ist_answer, job, library->length) || !refuses_short(plain_answer, job, plain->length))
        fail("a short area is not refused", i);
}

/* Prints how many jobs were accepted and how many refused by each question. */
static void check(jobs all)
{
    size_t refused[8] = {0};
    for (size_t i = 0; i < all.count; i++) {
        plain_job accepted;
        reply library = ask(ist_answer, all.frame[i]), plain = ask(plain_answer, all.frame[i]);
        if (library.refusal != plain.refusal)
            fail("library and plain C refuse differently", i);
        refused[library.refusal]++;
        if (plain_accept(all.frame[i].bytes, all.frame[i].length, &accepted) == 0)
            check_accepted(all.frame[i], i, &accepted, &library, &plain);
    }
    printf("%zu", refused[0]);
    for (int number = 1; number <= 6; number++)
        printf(" %zu", refused[number]);
    printf("\n");
}

/* Step sheets: that of each answer is made and applied again. */

/* The costs of an answer, as its own bytes; none of a refused job. */
static frame costs_of(frame job, const reply *r)
{
    plain_job accepted;
    if (plain_accept(job.bytes, job.length, &accepted) != 0)
        return (frame){r->area, 0};
    size_t first = numbers_length(r, 1);
    return (frame){r->area + first, numbers_length(r, 1 + accepted.edges) - first};
}

static void run_sheets(jobs all)
{
    uint8_t sheet[IST_SHEET_MOST], again[IST_COSTS_MOST];
    size_t sheet_length, length;
    for (size_t i = 0; i < all.count; i++) {
        frame job = all.frame[i];
        reply answer = ask(ist_answer, job);
        frame costs = costs_of(job, &answer);
        int32_t made = ist_sheet(job.bytes, job.length, costs.bytes, costs.length, sheet, sizeof sheet, &sheet_length);
        int32_t applied = ist_apply_sheet(job.bytes, job.length, sheet, sheet_length, again, sizeof again, &length);
        if (made != answer.refusal || applied != answer.refusal || length != costs.length || memcmp(again, costs.bytes, length) != 0)
            fail("the answer's sheet does not lead to its costs", i);
    }
}

/* Replays: each log in an area that is long enough and in one a byte too short, and without its last byte. */

typedef struct {
    uint8_t area[IST_COSTS_MOST];
    size_t length, first;
    int32_t refusal;
} costs_reply;

static costs_reply replay(replay_function *function, frame job, frame log, size_t area_length)
{
    costs_reply r = {.length = 0};
    r.refusal = function(job.bytes, job.length, log.bytes, log.length, r.area, area_length, &r.length, &r.first);
    return r;
}

static void check_replay(frame job, frame log, size_t area_length, int32_t refusal, size_t i)
{
    costs_reply library = replay(ist_replay, job, log, area_length), plain = replay(plain_replay, job, log, area_length);
    if (library.refusal != refusal || plain.refusal != refusal)
        fail("a log is not replayed, or not refused, as it should be", i);
    if (library.length != plain.length || library.first != plain.first
        || memcmp(library.area, plain.area, sizeof plain.area) != 0)
        fail("library and plain C replay differently", i);
}

static size_t count_packets(jobs all)
{
    size_t numbers = 0;
    for (size_t i = 1; i < all.count; i += 2)
        for (size_t at = 0; at < all.frame[i].length; at++)
            numbers += all.frame[i].bytes[at] < 128;
    return numbers / 2;
}

/* Prints the packets, and after how many the first job's tree is cheapest, or never. */
static void check_replays(jobs all)
{
    for (size_t i = 0; i + 1 < all.count; i += 2) {
        frame job = all.frame[i], log = all.frame[i + 1];
        size_t length = replay(plain_replay, job, log, IST_COSTS_MOST).length;
        check_replay(job, log, IST_COSTS_MOST, IST_OK, i);
        check_replay(job, log, length - 1, IST_REFUSED_AREA, i);
        check_replay(job, (frame){log.bytes, log.length - 1}, IST_COSTS_MOST, IST_REFUSED_LOG, i);
    }
    size_t first = replay(plain_replay, all.frame[0], all.frame[1], IST_COSTS_MOST).first;
    printf("%zu ", count_packets(all));
    printf(first == IST_NEVER ? "never\n" : "%zu\n", first);
}

/* Time: rounds of each version in turn, in processor time. */

enum { ROUNDS = 15, VERSIONS = 3 };
static const double ROUND_SECONDS = 0.01; /* the least that a version runs in a round */

typedef struct {
    jobs all;
    plain_job *accepted; /* of each job, for LEMON; null unless all are accepted */
} workload;

typedef void run_function(const workload *);

static void run_answers(answer_function *answer, jobs all)
{
    uint8_t area[IST_ANSWER_MOST];
    size_t written;
    for (size_t i = 0; i < all.count; i++)
        answer(all.frame[i].bytes, all.frame[i].length, area, sizeof area, &written);
}

static void run_library(const workload *load)
{
    run_answers(ist_answer, load->all);
}

static void run_plain(const workload *load)
{
    run_answers(plain_answer, load->all);
}

static void run_lemon(const workload *load)
{
    for (size_t i = 0; i < load->all.count; i++)
        lemon_steps(&load->accepted[i]);
}

static void run_replays(replay_function *function, jobs all)
{
    for (size_t i = 0; i + 1 < all.count; i += 2)
        replay(function, all.frame[i], all.frame[i + 1], IST_COSTS_MOST);
}

static void run_library_replays(const workload *load)
{
    run_replays(ist_replay, load->all);
}

static void run_plain_replays(const workload *load)
{
    run_replays(plain_replay, load->all);
}

static double seconds(void)
{
    struct timespec t;
    clock_gettime(CLOCK_THREAD_CPUTIME_ID, &t);
    return (double)t.tv_sec + 1e-9 * (double)t.tv_nsec;
}

static double run_seconds(run_function *run, const workload *load, unsigned times)
{
    double start = seconds();
    for (unsigned i = 0; i < times; i++)
        run(load);
    return (seconds() - start) / times;
}

/* How often to run in a round. */
static unsigned times_for(run_function *run, const workload *load)
{
    return 1 + (unsigned)(ROUND_SECONDS / run_seconds(run, load, 1));
}

static int compare(const void *a, const void *b)
{
    double x = *(const double *)a, y = *(const double *)b;
    return (x > y) - (x < y);
}

static double median(const double *values)
{
    double sorted[ROUNDS];
    memcpy(sorted, values, sizeof sorted);
    qsort(sorted, ROUNDS, sizeof *sorted, compare);
    return sorted[ROUNDS / 2];
}

/* The median of each round's ratio. */
static double median_ratio(const double *over, const double *under)
{
    double ratio[ROUNDS];
    for (int round = 0; round < ROUNDS; round++)
        ratio[round] = over[round] / under[round];
    return median(ratio);
}

/* Fills in the seconds of each version in each round. */
static void run_rounds(run_function *const *run, int versions, const workload *load, double (*time)[ROUNDS])
{
    unsigned times[VERSIONS];
    for (int v = 0; v < versions; v++)
        times[v] = times_for(run[v], load);
    for (int round = 0; round < ROUNDS; round++)
        for (int v = 0; v < versions; v++)
            time[v][round] = run_seconds(run[v], load, times[v]);
}

static workload prepare(jobs all)
{
    workload load = {all, malloc(all.count * sizeof(plain_job))};
    for (size_t i = 0; i < all.count; i++)
        if (plain_accept(all.frame[i].bytes, all.frame[i].length, &load.accepted[i]) != 0)
            return (workload){all, NULL};
    return load;
}

/* Prints microseconds a job of the library, of plain C and of LEMON, then library / plain C and LEMON / library; without
 * LEMON's unless all jobs are accepted. */
static void measure_time(jobs all)
{
    workload load = prepare(all);
    run_function *run[] = {run_library, run_plain, run_lemon};
    double time[VERSIONS][ROUNDS], each = 1e6 / (double)all.count;
    run_rounds(run, load.accepted ? 3 : 2, &load, time);
    printf("%f %f ", each * median(time[0]), each * median(time[1]));
    if (load.accepted)
        printf("%f %f %f\n", each * median(time[2]), median_ratio(time[0], time[1]), median_ratio(time[2], time[0]));
    else
        printf("- %f -\n", median_ratio(time[0], time[1]));
}

/* Prints packets a second of the library and of plain C, then library / plain C. */
static void measure_replay_time(jobs all)
{
    workload load = {all, NULL};
    run_function *run[] = {run_library_replays, run_plain_replays};
    double time[VERSIONS][ROUNDS], packets = (double)count_packets(all);
    run_rounds(run, 2, &load, time);
    printf("%f %f %f\n", packets / median(time[0]), packets / median(time[1]), median_ratio(time[1], time[0]));
}

/* Stack: the call runs on a painted stack. */

enum { STACK = 1 << 18, PAINT = 0xA5 };

static uint8_t stack[STACK];
static ucontext_t caller;

/* What the painted stack runs. */
static answer_function *called;
static jobs called_on;

static int32_t answer_nothing(const uint8_t *job, size_t job_length, uint8_t *area, size_t area_length, size_t *written)
{
    (void)job, (void)job_length, (void)area, (void)area_length;
    *written = 0;
    return 0;
}

static void run_called(void)
{
    run_answers(called, called_on);
}

/* The bytes of the painted stack that are overwritten. */
static size_t depth(answer_function *answer, jobs all)
{
    ucontext_t painted;
    size_t untouched = 0;
    memset(stack, PAINT, STACK);
    getcontext(&painted);
    painted.uc_stack.ss_sp = stack;
    painted.uc_stack.ss_size = STACK;
    painted.uc_link = &caller;
    called = answer;
    called_on = all;
    makecontext(&painted, run_called, 0);
    swapcontext(&caller, &painted);
    while (untouched < STACK && stack[untouched] == PAINT)
        untouched++;
    return STACK - untouched;
}

/* Prints the deepest stack of the library and of plain C, less an empty call's. */
static void measure_stack(jobs all)
{
    size_t empty = depth(answer_nothing, all);
    printf("%zu %zu\n", depth(ist_answer, all) - empty, depth(plain_answer, all) - empty);
}

static int usage(void)
{
    fprintf(stderr, "usage: bench check|time|library|plain|sheets|stack FILE\n"
                    "       bench replay-check|replay-time|replay-library|replay-plain FILE\n");
    return 2;
}

int main(int count, char **argument)
{
    if (count != 3)
        return usage();
    const char *mode = argument[1];
    jobs all = read_jobs(argument[2]);
    if (strcmp(mode, "check") == 0)
        check(all);
    else if (strcmp(mode, "time") == 0)
        measure_time(all);
    else if (strcmp(mode, "library") == 0)
        run_answers(ist_answer, all);
    else if (strcmp(mode, "plain") == 0)
        run_answers(plain_answer, all);
    else if (strcmp(mode, "sheets") == 0)
        run_sheets(all);
    else if (strcmp(mode, "stack") == 0)
        measure_stack(all);
    else if (strcmp(mode, "replay-check") == 0)
        check_replays(all);
    else if (strcmp(mode, "replay-time") == 0)
        measure_replay_time(all);
    else if (strcmp(mode, "replay-library") == 0)
        run_replays(ist_replay, all);
    else if (strcmp(mode, "replay-plain") == 0)
        run_replays(plain_replay, all);
    else
        return usage();
    return 0;
}
