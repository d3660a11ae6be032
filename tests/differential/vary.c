/* See vary.h. */
#include <string.h>

#include "generate.h"
#include "vary.h"

/* Costs. */

enum cost_move { ANYWHERE, NEARBY, LIMITS, ANOTHER_BYTE, FEW, COST_MOVES };

static int32_t within(int64_t cost)
{
    return (int32_t)(cost < 0 ? 0 : cost > COST_MOST ? COST_MOST : cost);
}

/* A change whose code is the last of so many bytes or the first of more, or next to one. */
static int32_t change_to_another_byte(void)
{
    int32_t size = (int32_t)PICK_OF(64, 8192, 1 << 20) + (int32_t)pick(3) - 1;

    return pick(2) == 0 ? size : -size;
}

static int32_t random_cost(enum cost_move move, int32_t old)
{
    switch (move) {
    case ANYWHERE:
        return (int32_t)pick(COST_MOST + 1);
    case NEARBY:
        return within(old + (int32_t)pick(5) - 2);
    case LIMITS:
        return (int32_t)PICK_OF(0, 1, 127, 128, 16383, 16384, COST_MOST - 1, COST_MOST);
    case ANOTHER_BYTE:
        return within(old + change_to_another_byte());
    default:
        return pick(4) == 0 ? (int32_t)pick(COST_MOST + 1) : old;
    }
}

void random_costs(const struct job *job, int32_t *cost)
{
    enum cost_move move = (enum cost_move)pick(COST_MOVES);

    for (size_t e = 0; e < job->edges; e++)
        cost[e] = random_cost(move, (int32_t)job->edge[e].cost);
}

static void costs_lowest(const struct job *job, int32_t *cost)
{
    for (size_t e = 0; e < job->edges; e++)
        cost[e] = 0;
}

static void costs_highest(const struct job *job, int32_t *cost)
{
    for (size_t e = 0; e < job->edges; e++)
        cost[e] = COST_MOST;
}

static void cost_long(const struct job *job, int32_t *cost)
{
    random_costs(job, cost);
    if (job->edges > 0)
        cost[pick((uint32_t)job->edges)] += COST_MOST + 1;
}

typedef void costs_kind(const struct job *job, int32_t *cost);

static costs_kind *const costs_kinds[] = {random_costs, old_costs, costs_lowest, costs_highest, cost_long};

/* Sheets. */

/* Near the ends of the range, on both sides, or any. */
static uint32_t random_code(int32_t old)
{
    int32_t end = pick(2) == 0 ? 0 : COST_MOST, change = end - old + (int32_t)pick(3) - 1;

    if (change != 0 && pick(2) == 0)
        return code_of(change);
    return 1 + pick(PICK_OF(4, 128, 16384, 1 << 21, 2 * COST_MOST, CODE_MOST));
}

void random_sheet(const struct job *job, struct sheet *sheet)
{
    uint32_t one_in = 1 + pick(4);

    sheet->moves = 0;
    for (uint32_t e = 0; e < job->edges; e++)
        if (pick(one_in) == 0)
            sheet->move[sheet->moves++] = (struct move){e, random_code((int32_t)job->edge[e].cost)};
}

static void sheet_right(const struct job *job, struct sheet *sheet)
{
    static int32_t cost[EDGES_MOST];

    random_costs(job, cost);
    make_sheet(job, cost, sheet);
}

static void sheet_empty(const struct job *job, struct sheet *sheet)
{
    (void)job;
    sheet->moves = 0;
}

static struct move *pick_move(struct sheet *sheet)
{
    return &sheet->move[pick((uint32_t)sheet->moves)];
}

/* By one or more. */
static void cost_leaves(const struct job *job, struct sheet *sheet)
{
    sheet_right(job, sheet);
    if (sheet->moves == 0)
        return;
    struct move *move = pick_move(sheet);
    int32_t old = (int32_t)job->edge[move->edge].cost, past = 1 + (int32_t)PICK_OF(0, 0, 127, pick(1 << 26));
    move->code = code_of(pick(2) == 0 ? -old - past : COST_MOST - old + past);
}

/* Past every change that a cost can take, in four bytes. */
static void code_long(const struct job *job, struct sheet *sheet)
{
    sheet_right(job, sheet);
    pick_move(sheet)->code = PICK_OF(2 * COST_MOST + 1, 2 * COST_MOST + 1 + pick(CODE_MOST - 2 * COST_MOST), CODE_MOST);
}

static void code_zero(const struct job *job, struct sheet *sheet)
{
    sheet_right(job, sheet);
    pick_move(sheet)->code = 0;
}

static void moves_exchanged(const struct job *job, struct sheet *sheet)
{
    sheet_right(job, sheet);
    struct move *one = pick_move(sheet), *other = pick_move(sheet), held = *one;
    *one = *other;
    *other = held;
}

static void move_twice(const struct job *job, struct sheet *sheet)
{
    sheet_right(job, sheet);
    if (sheet->moves == 0)
        return;
    size_t twice = pick((uint32_t)sheet->moves);
    for (size_t i = sheet->moves++; i > twice; i--)
        sheet->move[i] = sheet->move[i - 1];
}

/* One more move behind the others, or in the last one's place. */
static void edge_past(const struct job *job, struct sheet *sheet)
{
    uint32_t edges = (uint32_t)job->edges, there = pick(edges + 1);

    sheet_right(job, sheet);
    if (sheet->moves > 0 && pick(2) == 0)
        sheet->moves--;
    sheet->move[sheet->moves++] = (struct move){
        PICK_OF(edges, edges + 1, 256, 256 + there, 16384, 16384 + there, 65536 + there, CODE_MOST), 1 + pick(4)};
}

typedef void sheet_kind(const struct job *job, struct sheet *sheet);

static sheet_kind *const sheet_kinds[] = {
    sheet_right, random_sheet, sheet_empty, cost_leaves, code_long, code_zero, moves_exchanged, move_twice, edge_past,
};

/* Bytes. */

static size_t no_bytes(const uint8_t *bytes, size_t length, uint8_t *to)
{
    (void)bytes;
    (void)length;
    (void)to;
    return 0;
}

static size_t last_byte_dropped(const uint8_t *bytes, size_t length, uint8_t *to)
{
    memcpy(to, bytes, length);
    return length == 0 ? 0 : length - 1;
}

static size_t byte_appended(const uint8_t *bytes, size_t length, uint8_t *to)
{
    memcpy(to, bytes, length);
    to[length] = (uint8_t)PICK_OF(0, 1, 2, 128, 129, 255);
    return length + 1;
}

struct place {
    size_t start, end;
    uint32_t value;
};

/* One of the numbers, or the end if there is none. */
static struct place pick_place(const uint8_t *bytes, size_t length)
{
    static struct numbers numbers;

    divide_sheet(bytes, length, &numbers);
    if (numbers.count == 0)
        return (struct place){length, length, 0};
    uint32_t place = pick((uint32_t)numbers.count);
    return (struct place){numbers.start[place], numbers.start[place + 1], numbers.value[place]};
}

static size_t number_longer(const uint8_t *bytes, size_t length, uint8_t *to)
{
    struct place place = pick_place(bytes, length);
    uint8_t part[DAMAGE_MOST];
    size_t part_length = put_longer(part, place.value, 1 + pick(2));

    return put_instead(to, bytes, length, place.start, place.end, part, part_length);
}

static size_t first_number_longer(const uint8_t *bytes, size_t length, uint8_t *to)
{
    static struct numbers numbers;
    uint8_t part[DAMAGE_MOST];

    divide_sheet(bytes, length, &numbers);
    if (numbers.count == 0)
        return put_longer(to, 0, 1);
    return put_instead(to, bytes, length, 0, numbers.start[1], part, put_longer(part, numbers.value[0], 1));
}

/* Numbers of up to five bytes, which end in the bits of the right one. */
static size_t number_larger(const uint8_t *bytes, size_t length, uint8_t *to)
{
    struct place place = pick_place(bytes, length);
    uint32_t larger = place.value + PICK_OF(256, 16384, 65536, 1 << 21, 1 << 22, 1 << 28, (uint32_t)1 << 31);
    uint8_t part[DAMAGE_MOST];
    size_t part_length = put_number(part, larger);

    return put_instead(to, bytes, length, place.start, place.end, part, part_length);
}

static size_t number_dropped(const uint8_t *bytes, size_t length, uint8_t *to)
{
    struct place place = pick_place(bytes, length);

    return put_instead(to, bytes, length, place.start, place.end, bytes, 0);
}

static size_t number_twice(const uint8_t *bytes, size_t length, uint8_t *to)
{
    struct place place = pick_place(bytes, length);

    return put_instead(to, bytes, length, place.start, place.start, bytes + place.start, place.end - place.start);
}

static size_t number_appended(const uint8_t *bytes, size_t length, uint8_t *to)
{
    memcpy(to, bytes, length);
    return length + put_number(to + length, PICK_OF(0, 1, 128, 16384, COST_MOST));
}

static size_t other_bytes(const uint8_t *bytes, size_t length, uint8_t *to)
{
    (void)bytes;
    return random_bytes(to, (uint32_t)length + 4);
}

typedef size_t spoil(const uint8_t *bytes, size_t length, uint8_t *to);

static spoil *const spoils[SPOILS] = {
    no_bytes,      last_byte_dropped, byte_appended, number_longer,   first_number_longer,
    number_larger, number_dropped,    number_twice,  number_appended, damage_frame,
    other_bytes,
};

size_t spoil_bytes(uint32_t which, const uint8_t *bytes, size_t length, uint8_t *to)
{
    return spoils[which](bytes, length, to);
}

static size_t count_changed(const struct sheet *sheet, uint8_t *to)
{
    uint32_t right = (uint32_t)sheet->moves, fewer = right > 0 ? right - 1 : 127;
    uint32_t count = PICK_OF(right + 1, fewer, right + 256, right + 65536, right + (1 << 21), CODE_MOST);

    return put_moves(to, count, sheet->move, sheet->moves);
}

enum {
    COSTS_KINDS = sizeof costs_kinds / sizeof costs_kinds[0],
    SHEET_KINDS = sizeof sheet_kinds / sizeof sheet_kinds[0]
};

const uint32_t costs_variations = COSTS_KINDS + SPOILS, sheet_variations = SHEET_KINDS + SPOILS + 1;

size_t vary_costs(uint32_t which, const struct job *job, uint8_t *to)
{
    static int32_t cost[EDGES_MOST];
    static uint8_t right[SHEET_ROOM];

    if (which < COSTS_KINDS) {
        costs_kinds[which](job, cost);
        return put_costs(to, cost, job->edges);
    }
    random_costs(job, cost);
    return spoil_bytes(which - COSTS_KINDS, right, put_costs(right, cost, job->edges), to);
}

size_t vary_sheet(uint32_t which, const struct job *job, uint8_t *to)
{
    static struct sheet sheet;
    static uint8_t right[SHEET_ROOM];

    if (which < SHEET_KINDS) {
        sheet_kinds[which](job, &sheet);
        return put_sheet(to, &sheet);
    }
    sheet_right(job, &sheet);
    if (which == SHEET_KINDS + SPOILS)
        return count_changed(&sheet, to);
    return spoil_bytes(which - SHEET_KINDS, right, put_sheet(right, &sheet), to);
}
