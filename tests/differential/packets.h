/* Packet logs to try on a job: some in form, most not. */
#ifndef PACKETS_H
#define PACKETS_H

#include "logs.h"

/* What a log is made for: the job, its best costs, to which many logs lead, and how many packets it may have. */
struct plan {
    const struct job *job;
    const struct solution *solution;
    size_t most;
};

extern const uint32_t log_variations;

/* How many packets a replay that judges after each of them has time for, and vary_log has room for. */
size_t packets_for(const struct job *job);
/* The packets that lead to the lowest best costs or to the highest, in any order; only some if the plan has no room for all. */
void log_settling(const struct plan *plan, struct log *log);
/* A log of one of the kinds in form. */
void random_log(const struct plan *plan, struct log *log);
/* A log in form but for one packet, the last or any, whose edge or way does not exist. */
void wrong_log(const struct plan *plan, struct log *log);
size_t vary_log(uint32_t which, const struct plan *plan, uint8_t *to);

#endif
