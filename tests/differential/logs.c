/* See logs.h. A log is divided into all its numbers first, and then asked as a whole. */
#include "logs.h"

size_t put_log(uint8_t *to, const struct log *log)
{
    size_t length = 0;

    for (size_t i = 0; i < log->packets; i++) {
        length += put_number(to + length, log->packet[i].edge);
        length += put_number(to + length, log->packet[i].way);
    }
    return length;
}

/* The bytes from a place on up to the first below 128. Is that one there, and are they the number's shortest form? */
static bool take_number(const uint8_t *bytes, size_t length, size_t *at, uint32_t *value)
{
    uint8_t shortest[NUMBER_BYTES];
    size_t end = *at, size;

    while (end < length && bytes[end] >= 128)
        end++;
    size = end + 1 - *at;
    if (end == length || size > NUMBER_BYTES)
        return false;
    *value = 0;
    for (size_t i = size; i > 0; i--)
        *value = *value << 7 | (bytes[*at + i - 1] & 127);
    *at += size;
    return put_number(shortest, *value) == size;
}

static bool packets_are_right(const struct job *job, const struct log *log)
{
    for (size_t i = 0; i < log->packets; i++)
        if (log->packet[i].edge >= job->edges || log->packet[i].way > 1)
            return false;
    return true;
}

bool read_log(const struct job *job, const uint8_t *bytes, size_t length, struct log *log)
{
    size_t numbers = 0;

    for (size_t at = 0; at < length; numbers++) {
        struct packet *packet = &log->packet[numbers / 2];
        if (!take_number(bytes, length, &at, numbers % 2 == 0 ? &packet->edge : &packet->way))
            return false;
    }
    log->packets = numbers / 2;
    return numbers % 2 == 0 && packets_are_right(job, log);
}

/* One packet over the table of costs. */
static void hear(const struct packet *packet, struct replay *replay)
{
    int32_t moved = replay->cost[packet->edge] + (packet->way == 1 ? 1 : -1);

    if (moved < 0 || moved > COST_MOST)
        replay->left++;
    else
        replay->cost[packet->edge] = moved;
}

static bool is_judged_cheapest(const struct job *job, const struct trees *trees, const int32_t *cost)
{
    return trees != NULL ? is_cheapest_of(job, trees, cost) : is_cheapest(job, cost);
}

void replay_log(const struct job *job, const struct trees *trees, const struct log *log, struct replay *replay)
{
    replay->first = NEVER;
    replay->left = 0;
    old_costs(job, replay->cost);
    for (size_t heard = 0;; heard++) {
        if (replay->first == NEVER && is_judged_cheapest(job, trees, replay->cost))
            replay->first = heard;
        if (heard == log->packets)
            return;
        hear(&log->packet[heard], replay);
    }
}
