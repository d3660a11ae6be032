/* The library's list functions: they say of the links lent what the others say of the frame lent. Where no links are lent,
 * nothing is checked. */
#ifndef LISTS_H
#define LISTS_H

#include "reference.h"

/* Lends the records of a frame that holds whole ones and no more; of any other frame nothing. */
void lend_records(const struct numbers *numbers);
void lend_edges(uint32_t nodes, const struct edge *edge, size_t count);
void check_list_judge(int32_t wanted);
void check_list_offer(int32_t wanted);
/* Where the library finds a link's new cost by the links lent; false if none are. */
bool find_list_cost(uint32_t link, size_t *offset, size_t *length);
void check_list_writers(int refusal, const uint8_t *answer, size_t length);

#endif
