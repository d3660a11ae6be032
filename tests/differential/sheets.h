/* Step sheets, and costs in link order, in and out. */
#ifndef SHEETS_H
#define SHEETS_H

#include "reference.h"

/* There is room for a wrong move or two more than there are edges. */
enum { CODE_MOST = (1 << 28) - 1, MOVES_ROOM = EDGES_MOST + 2, SHEET_ROOM = 4096 };

struct move {
    uint32_t edge, code;
};

/* What a sheet holds, right or not. */
struct sheet {
    size_t moves;
    struct move move[MOVES_ROOM];
};

uint32_t code_of(int32_t change);
int32_t change_of(uint32_t code);
/* The sum of the absolute changes. */
int64_t steps_of(const struct sheet *sheet);

size_t put_costs(uint8_t *to, const int32_t *cost, size_t count);
/* Moves behind a count, theirs or not. */
size_t put_moves(uint8_t *to, uint32_t count, const struct move *move, size_t moves);
size_t put_sheet(uint8_t *to, const struct sheet *sheet);

/* Of an accepted job. Are the bytes one cost for each edge and nothing more? */
bool read_costs(const struct job *job, const uint8_t *bytes, size_t length, int32_t *cost);
/* Are the bytes a sheet in form? Its changes may lead anywhere. */
bool read_sheet(const struct job *job, const uint8_t *bytes, size_t length, struct sheet *sheet);
void make_sheet(const struct job *job, const int32_t *cost, struct sheet *sheet);
/* False if a cost leaves its range. */
bool apply_sheet(const struct job *job, const struct sheet *sheet, int32_t *cost);

#endif
