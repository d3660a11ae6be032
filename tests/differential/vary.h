/* Costs and step sheets to try on a job: some in form, most not. Only the job's edge count and old costs matter. */
#ifndef VARY_H
#define VARY_H

#include "sheets.h"

enum { SPOILS = 11 };

extern const uint32_t costs_variations, sheet_variations;

void random_costs(const struct job *job, int32_t *cost);
/* A sheet in form; mostly some of its changes leave the range. */
void random_sheet(const struct job *job, struct sheet *sheet);
size_t vary_costs(uint32_t which, const struct job *job, uint8_t *to);
size_t vary_sheet(uint32_t which, const struct job *job, uint8_t *to);
/* Bytes of at most NUMBERS_MOST numbers with one thing made different. */
size_t spoil_bytes(uint32_t which, const uint8_t *bytes, size_t length, uint8_t *to);

#endif
