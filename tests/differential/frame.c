/* Numbers, job frames and answer frames in and out, and the questions 1 to 5 put to a job. */
#include <string.h>

#include "reference.h"

static void keep(struct numbers *numbers, uint32_t value, size_t end)
{
    if (numbers->count < NUMBERS_MOST) {
        numbers->value[numbers->count] = value;
        numbers->start[numbers->count + 1] = end;
    }
    numbers->count++;
}

static void divide_by(const uint8_t *frame, size_t length, size_t first_most, size_t other_most, struct numbers *numbers)
{
    uint32_t value = 0;
    size_t groups = 0;

    numbers->whole = false;
    numbers->count = 0;
    numbers->start[0] = 0;
    for (size_t i = 0; i < length; i++) {
        size_t most = numbers->count == 0 ? first_most : other_most;
        value |= (uint32_t)(frame[i] & 127) << (7 * groups);
        groups++;
        if (frame[i] >= 128) {
            if (groups == most)
                return;
        } else {
            if (frame[i] == 0 && groups > 1)
                return;
            keep(numbers, value, i + 1);
            value = 0;
            groups = 0;
        }
    }
    numbers->whole = groups == 0;
}

void divide(const uint8_t *frame, size_t length, size_t first_most, struct numbers *numbers)
{
    divide_by(frame, length, first_most, NUMBER_BYTES, numbers);
}

void divide_sheet(const uint8_t *sheet, size_t length, struct numbers *numbers)
{
    divide_by(sheet, length, CODE_BYTES, CODE_BYTES, numbers);
}

size_t put_number(uint8_t *to, uint32_t value)
{
    size_t length = 0;

    for (; value > 127; value >>= 7)
        to[length++] = (uint8_t)(value | 128);
    to[length++] = (uint8_t)value;
    return length;
}

size_t put_edges(uint8_t *to, uint32_t nodes, const struct edge *edge, size_t count)
{
    size_t length = put_number(to, nodes);

    length += put_number(to + length, (uint32_t)count);
    for (size_t e = 0; e < count; e++) {
        length += put_number(to + length, edge[e].end1);
        length += put_number(to + length, edge[e].end2);
        length += put_number(to + length, edge[e].cost);
        length += put_number(to + length, edge[e].mark);
    }
    return length;
}

size_t put_job(uint8_t *to, const struct job *job)
{
    return put_edges(to, job->nodes, job->edge, job->edges);
}

size_t put_answer(uint8_t *to, const struct job *job, const struct answer *answer)
{
    size_t length = put_number(to, answer->steps);

    for (size_t e = 0; e < job->edges; e++)
        length += put_number(to + length, (uint32_t)answer->cost[e]);
    length += put_number(to + length, (uint32_t)answer->matching.pairs);
    for (size_t i = 0; i < answer->matching.pairs; i++) {
        length += put_number(to + length, answer->matching.pair[i].tree);
        length += put_number(to + length, answer->matching.pair[i].spare);
    }
    return length;
}

/* The frame with other bytes in the place of those from start to end. */
size_t put_instead(uint8_t *to, const uint8_t *frame, size_t length, size_t start, size_t end, const uint8_t *part,
                   size_t part_length)
{
    memcpy(to, frame, start);
    memcpy(to + start, part, part_length);
    memcpy(to + start + part_length, frame + end, length - end);
    return start + part_length + (length - end);
}

static bool ends_are_right(const struct job *job)
{
    for (size_t e = 0; e < job->edges; e++) {
        const struct edge *edge = &job->edge[e];
        if (edge->end1 >= job->nodes || edge->end2 >= job->nodes || edge->end1 == edge->end2)
            return false;
    }
    return true;
}

static bool marks_are_right(const struct job *job)
{
    for (size_t e = 0; e < job->edges; e++)
        if (job->edge[e].mark >= MARKS)
            return false;
    return true;
}

static void take_edges(const struct numbers *numbers, struct job *job)
{
    job->nodes = numbers->value[0];
    job->edges = numbers->value[1];
    for (size_t e = 0; e < job->edges; e++) {
        const uint32_t *four = &numbers->value[2 + 4 * e];
        job->edge[e] = (struct edge){four[0], four[1], four[2], four[3]};
    }
}

/* The refusal, 0 for an accepted job. The job is filled in from question 4 on. */
int read_job(const struct numbers *numbers, struct job *job)
{
    if (!numbers->whole)
        return 1;
    if (numbers->count < 2 || numbers->value[0] < 1 || numbers->value[0] > NODES_MOST || numbers->value[1] > EDGES_MOST)
        return 2;
    if (numbers->count != 2 + 4 * (size_t)numbers->value[1])
        return 3;
    take_edges(numbers, job);
    if (!ends_are_right(job))
        return 4;
    if (!marks_are_right(job))
        return 5;
    return is_spanning(job) ? 0 : 6;
}

/* Does the layout hold, with nothing following and no more pairs than there is room for? */
bool read_answer(const struct job *job, const struct numbers *numbers, struct answer *answer)
{
    const uint32_t *after_costs = &numbers->value[1 + job->edges];
    struct matching *matching = &answer->matching;

    if (!numbers->whole || numbers->count < job->edges + 2 || numbers->count > NUMBERS_MOST)
        return false;
    matching->pairs = after_costs[0];
    if (numbers->count != job->edges + 2 + 2 * matching->pairs || matching->pairs > PAIRS_MOST)
        return false;
    answer->steps = numbers->value[0];
    for (size_t e = 0; e < job->edges; e++)
        answer->cost[e] = (int32_t)numbers->value[1 + e];
    for (size_t i = 0; i < matching->pairs; i++)
        matching->pair[i] = (struct pair){after_costs[1 + 2 * i], after_costs[2 + 2 * i]};
    return true;
}
