/* Packet logs, in and out, and their replay over a plain table of costs. */
#ifndef LOGS_H
#define LOGS_H

#include "exhaustive.h"

/* A packet takes two bytes or more: what fits the room in bytes fits the room in packets. */
enum { PACKETS_MOST = 1 << 21, LOG_ROOM = 2 * PACKETS_MOST };

#define NEVER SIZE_MAX

/* `way` is 1 for up, 0 for down. */
struct packet {
    uint32_t edge, way;
};

/* What a log holds, right or not. */
struct log {
    size_t packets;
    struct packet packet[PACKETS_MOST];
};

/* The final costs; the least number of packets after which the tree was cheapest, or NEVER; how many packets would have taken a
 * cost out of its range. */
struct replay {
    int32_t cost[EDGES_MOST];
    size_t first, left;
};

size_t put_log(uint8_t *to, const struct log *log);
/* Of an accepted job. Are the bytes, at most LOG_ROOM of them, packets of its edges and nothing more? */
bool read_log(const struct job *job, const uint8_t *bytes, size_t length, struct log *log);
/* The tree is judged afresh after every packet until it is cheapest: by all spanning trees if they are given, else as for any
 * job. */
void replay_log(const struct job *job, const struct trees *trees, const struct log *log, struct replay *replay);

#endif
