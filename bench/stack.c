/* Measures the stack of every function of the library on a file of jobs: each frame is preceded by its length in four bytes,
 * lowest first. Usage: stack FILE. Prints a line for each function: its name and the most bytes of stack that a call takes. */
#define _GNU_SOURCE
#include "../include/ist.h"

#include <stdio.h>
#include <stdlib.h>
#include <string.h>
#include <ucontext.h>

enum { STACK = 1 << 18, PAINT = 0xA5, LINKS = 256, PAIRS = 64, FRAME = 1 << 20, PACKETS = 6 * LINKS };

static uint8_t stack[STACK];
static ucontext_t caller;

/* What every call is given, and where it writes. */
static uint8_t job[FRAME], answer[IST_ANSWER_MOST], new_costs[IST_COSTS_MOST], sheet[IST_SHEET_MOST], packets[PACKETS];
static uint8_t area[IST_JOB_MOST];
static ist_link links[LINKS], read_links[LINKS];
static uint32_t costs[LINKS], pairs[2 * PAIRS], stations, read_stations, steps;
static size_t job_length, answer_length, costs_length, sheet_length, log_length, count, read_count, pair_count, written, first;
static size_t offset, length;

static void nothing(void)
{
}

static void call_answer(void)
{
    ist_answer(job, job_length, area, sizeof area, &written);
}

static void call_judge(void)
{
    ist_judge(job, job_length);
}

static void call_judge_answer(void)
{
    ist_judge_answer(job, job_length, answer, answer_length);
}

static void call_sheet(void)
{
    ist_sheet(job, job_length, new_costs, costs_length, area, sizeof area, &written);
}

static void call_apply_sheet(void)
{
    ist_apply_sheet(job, job_length, sheet, sheet_length, area, sizeof area, &written);
}

static void call_replay(void)
{
    ist_replay(job, job_length, packets, log_length, area, sizeof area, &written, &first);
}

static void call_find_link(void)
{
    ist_find_link(job, job_length, 0, &offset, &length);
}

static void call_find_cost(void)
{
    ist_find_cost(job, job_length, answer, answer_length, 0, &offset, &length);
}

static void call_read_job(void)
{
    ist_read_job(job, job_length, read_links, 4 * LINKS, &read_stations, &read_count);
}

static void call_read_answer(void)
{
    ist_read_answer(job, job_length, answer, answer_length, costs, LINKS, pairs, 2 * PAIRS, &steps, &read_count, &pair_count);
}

static void call_answer_list(void)
{
    ist_answer_list(stations, links, count, area, sizeof area, &written);
}

static void call_judge_list(void)
{
    ist_judge_list(stations, links, count);
}

static void call_judge_answer_list(void)
{
    ist_judge_answer_list(stations, links, count, answer, answer_length);
}

static void call_find_cost_list(void)
{
    ist_find_cost_list(stations, links, count, answer, answer_length, 0, &offset, &length);
}

static void call_write_job(void)
{
    ist_write_job(stations, links, count, area, sizeof area, &written);
}

static struct {
    const char *name;
    void (*call)(void);
    size_t most;
} functions[] = {
    {"ist_answer", call_answer, 0},
    {"ist_judge", call_judge, 0},
    {"ist_judge_answer", call_judge_answer, 0},
    {"ist_sheet", call_sheet, 0},
    {"ist_apply_sheet", call_apply_sheet, 0},
    {"ist_replay", call_replay, 0},
    {"ist_find_link", call_find_link, 0},
    {"ist_find_cost", call_find_cost, 0},
    {"ist_read_job", call_read_job, 0},
    {"ist_read_answer", call_read_answer, 0},
    {"ist_answer_list", call_answer_list, 0},
    {"ist_judge_list", call_judge_list, 0},
    {"ist_judge_answer_list", call_judge_answer_list, 0},
    {"ist_find_cost_list", call_find_cost_list, 0},
    {"ist_write_job", call_write_job, 0},
};

enum { FUNCTIONS = sizeof functions / sizeof functions[0] };

/* The bytes of a painted stack that a call overwrites. */
static size_t depth(void (*call)(void))
{
    ucontext_t painted;
    size_t untouched = 0;
    memset(stack, PAINT, STACK);
    getcontext(&painted);
    painted.uc_stack.ss_sp = stack;
    painted.uc_stack.ss_size = STACK;
    painted.uc_link = &caller;
    makecontext(&painted, call, 0);
    swapcontext(&caller, &painted);
    while (untouched < STACK && stack[untouched] == PAINT)
        untouched++;
    return STACK - untouched;
}

/* The next frame of the file into `job`, or 0 at its end. */
static int next_job(FILE *file)
{
    uint8_t size[4];
    if (fread(size, 1, 4, file) != 4)
        return 0;
    job_length = size[0] | (size_t)size[1] << 8 | (size_t)size[2] << 16 | (size_t)size[3] << 24;
    if (job_length > FRAME || fread(job, 1, job_length, file) != job_length) {
        fprintf(stderr, "a frame of %zu bytes that cannot be read\n", job_length);
        exit(1);
    }
    return 1;
}

/* The new costs of the answer, as its own bytes, and their sheet; both empty for a refused job. */
static void make_sheet(void)
{
    size_t start = 0, last = 0, last_length = 0;
    ist_find_cost(job, job_length, answer, answer_length, 0, &start, &last_length);
    if (count > 0)
        ist_find_cost(job, job_length, answer, answer_length, (uint32_t)count - 1, &last, &last_length);
    costs_length = last + last_length - start;
    memcpy(new_costs, answer + start, costs_length);
    ist_sheet(job, job_length, new_costs, costs_length, sheet, sizeof sheet, &sheet_length);
}

static void add_packet(uint32_t link, uint8_t up)
{
    if (link > 127)
        packets[log_length++] = (uint8_t)(link | 128);
    packets[log_length++] = (uint8_t)(link > 127 ? link >> 7 : link);
    packets[log_length++] = up;
}

/* Every link up and down again. */
static void make_log(void)
{
    log_length = 0;
    for (uint32_t link = 0; link < count; link++) {
        add_packet(link, 1);
        add_packet(link, 0);
    }
}

static void measure(size_t empty)
{
    ist_read_job(job, job_length, links, 4 * LINKS, &stations, &count);
    ist_answer(job, job_length, answer, sizeof answer, &answer_length);
    make_sheet();
    make_log();
    for (size_t i = 0; i < FUNCTIONS; i++) {
        size_t taken = depth(functions[i].call) - empty;
        if (functions[i].most < taken)
            functions[i].most = taken;
    }
}

int main(int arguments, char **argument)
{
    FILE *file = arguments == 2 ? fopen(argument[1], "rb") : NULL;
    if (!file) {
        fprintf(stderr, "usage: stack FILE\n");
        return 2;
    }
    size_t empty = depth(nothing);
    while (next_job(file))
        measure(empty);
    fclose(file);
    for (size_t i = 0; i < FUNCTIONS; i++)
        printf("%s %zu\n", functions[i].name, functions[i].most);
    return 0;
}
