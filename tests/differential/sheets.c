/* See sheets.h. */
#include <stdlib.h>

#include "sheets.h"

uint32_t code_of(int32_t change)
{
    return (uint32_t)(change > 0 ? 2 * change : -2 * change - 1);
}

int32_t change_of(uint32_t code)
{
    int32_t half = (int32_t)(code / 2);

    return code % 2 == 0 ? half : -half - 1;
}

int64_t steps_of(const struct sheet *sheet)
{
    int64_t steps = 0;

    for (size_t i = 0; i < sheet->moves; i++)
        steps += abs(change_of(sheet->move[i].code));
    return steps;
}

size_t put_costs(uint8_t *to, const int32_t *cost, size_t count)
{
    size_t length = 0;

    for (size_t e = 0; e < count; e++)
        length += put_number(to + length, (uint32_t)cost[e]);
    return length;
}

size_t put_moves(uint8_t *to, uint32_t count, const struct move *move, size_t moves)
{
    size_t length = put_number(to, count);

    for (size_t i = 0; i < moves; i++) {
        length += put_number(to + length, move[i].edge);
        length += put_number(to + length, move[i].code);
    }
    return length;
}

size_t put_sheet(uint8_t *to, const struct sheet *sheet)
{
    return put_moves(to, (uint32_t)sheet->moves, sheet->move, sheet->moves);
}

bool read_costs(const struct job *job, const uint8_t *bytes, size_t length, int32_t *cost)
{
    static struct numbers numbers;

    divide(bytes, length, NUMBER_BYTES, &numbers);
    if (!numbers.whole || numbers.count != job->edges)
        return false;
    for (size_t e = 0; e < job->edges; e++)
        cost[e] = (int32_t)numbers.value[e];
    return true;
}

bool read_sheet(const struct job *job, const uint8_t *bytes, size_t length, struct sheet *sheet)
{
    static struct numbers numbers;
    uint32_t free_edge = 0;

    divide_sheet(bytes, length, &numbers);
    if (!numbers.whole || numbers.count == 0 || numbers.value[0] > job->edges || numbers.count != 1 + 2 * numbers.value[0])
        return false;
    sheet->moves = numbers.value[0];
    for (size_t i = 0; i < sheet->moves; i++) {
        struct move move = {numbers.value[1 + 2 * i], numbers.value[2 + 2 * i]};
        if (move.edge < free_edge || move.edge >= job->edges || move.code == 0)
            return false;
        sheet->move[i] = move;
        free_edge = move.edge + 1;
    }
    return true;
}

void make_sheet(const struct job *job, const int32_t *cost, struct sheet *sheet)
{
    sheet->moves = 0;
    for (uint32_t e = 0; e < job->edges; e++) {
        int32_t change = cost[e] - (int32_t)job->edge[e].cost;
        if (change != 0)
            sheet->move[sheet->moves++] = (struct move){e, code_of(change)};
    }
}

bool apply_sheet(const struct job *job, const struct sheet *sheet, int32_t *cost)
{
    old_costs(job, cost);
    for (size_t i = 0; i < sheet->moves; i++) {
        int32_t *moved = &cost[sheet->move[i].edge];
        *moved += change_of(sheet->move[i].code);
        if (*moved < 0 || *moved > COST_MOST)
            return false;
    }
    return true;
}
