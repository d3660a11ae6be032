/* The library's two functions of step sheets, on the job frame lent: each writes what the reference does, and the other makes
 * what it has written into what went in. */
#ifndef MOVERS_H
#define MOVERS_H

#include "alter.h"
#include "lend.h"

/* Lends what goes in beside the job, which must stay as it is, and holds the writer to the word and the bytes. */
void hold_writer(const struct writer *writer, const uint8_t *in, size_t in_length, int32_t word, const uint8_t *out,
                 size_t out_length);
/* Holds ist_sheet to the reference on these bytes as costs, and ist_apply_sheet on the sheet. The job is the frame's if that is
 * not refused. */
void check_costs(int refusal, const struct job *job, const uint8_t *costs, size_t length);
/* The other way round. */
void check_sheet(int refusal, const struct job *job, const uint8_t *sheet, size_t length);
/* Both on the answer's costs, and on some costs and sheets or, if `thorough`, on all kinds of them. */
void check_moves(int refusal, const struct given *given);

#endif
