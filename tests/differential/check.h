/* Holds every function of the library to the reference, on one job frame or one list of links. */
#ifndef CHECK_H
#define CHECK_H

#include "reference.h"

struct counts {
    size_t frames, refused[7], with_steps, cheapest, with_unplugged, steps_most, answer_longest;
    size_t searched, offers_yes, offers_no, finds, lists, lists_refused[7], list_calls, reads;
    /* Costs and sheets tried: done, refused by 8 (`leaving`: for a cost that leaves its range), or refused with the job. */
    size_t sheets_made, sheet_longest, costs_refused, sheets_applied, sheets_refused, sheets_leaving, moves_refused;
    /* Logs tried: replayed, by when the tree was first cheapest (`shortest`: after as many packets as the answer has steps, not
     * none), refused by 9, or refused with the job. Packets, and those that would have taken a cost out of its range. */
    size_t logs_at_start, logs_later, logs_never, logs_shortest, logs_by_trees, logs_refused, logs_refused_with_job;
    size_t log_longest, packets, packets_left;
};

extern struct counts counts;
/* Whether all alterations of an answer are tried and every job that has few edges is searched, or some of them. */
extern bool thorough;

void check_frame(const uint8_t *frame, size_t length);
/* The same for a list of links, and for the frame that holds it. */
void check_list(uint32_t nodes, const struct edge *edge, size_t count);
/* Holds the outcome of the last frame to a refusal, or to 0 and an answer. */
void expect_answer(int refusal, const uint8_t *answer, size_t length);

#endif
