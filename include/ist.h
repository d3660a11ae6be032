/* Least-step link costs for a marked spanning tree (inverse spanning tree): the library's functions for C.
 *
 * Every function takes any bytes and any numbers and always returns. All are reentrant: they keep no state, may be called
 * again while they run, from several threads at once, and call nothing but memcpy and memset. docs/FRAMES.md has the layout of
 * job and answer frames, of costs, of step sheets and of packet logs, with examples.
 *
 * What the caller owes, since nothing can test it here:
 * - a pointer with its length names that many elements that may be read (and written, unless it points to const); they are
 *   aligned as C aligns their type, and nobody changes them during the call;
 * - what is written overlaps nothing else that is passed;
 * - a pointer is never null, not even for an empty vector: there pass any aligned pointer that is not null, as that of an array
 *   of one element, with length 0;
 * - enough stack. Measured on x86-64 (bench/stack), rounded up to the next 100 bytes:
 *     ist_answer        12,800    ist_answer_list        16,900
 *     ist_judge          8,100    ist_judge_list         16,300
 *     ist_judge_answer   8,100    ist_judge_answer_list  16,300
 *     ist_find_link      6,500    ist_find_cost_list     16,300
 *     ist_find_cost      8,200    ist_write_job          16,300
 *     ist_read_job      13,700    ist_read_answer        11,300
 *     ist_sheet          7,600    ist_apply_sheet         6,600
 *     ist_replay         8,200
 *
 * Results. A refusal is the first "no" of the questions put, by the numbers below: 1 to 6 to the job, then 8 or 9 to what comes
 * with it, and 7 last. It writes nothing into an area or an array. A judge's yes is 0, like success; its no is -1; compare with
 * the names.
 */
#ifndef IST_H
#define IST_H

#include <stddef.h>
#include <stdint.h>

#ifdef __cplusplus
extern "C" {
#endif

/* Done. */
#define IST_OK 0
/* From a judge: yes, or no of an accepted job. */
#define IST_YES 0
#define IST_NO (-1)

/* Refusals: a number is not in shortest form of one to three bytes (in a list: it is above 2,097,151); */
#define IST_REFUSED_NUMBER 1
/* the counts are not 1 to 64 stations and 0 to 256 links; */
#define IST_REFUSED_COUNTS 2
/* there are not exactly 2 + 4 * links numbers (never of a list); */
#define IST_REFUSED_LENGTH 3
/* a link's ends are not below the station count and different; */
#define IST_REFUSED_ENDS 4
/* a mark is not 0, 1 or 2; */
#define IST_REFUSED_MARK 5
/* the marked links are no spanning tree; */
#define IST_REFUSED_TREE 6
/* the area, or an array, is too short for what would be written; */
#define IST_REFUSED_AREA 7
/* the costs or the sheet going in are not in form, or a cost leaves 0 to 2,097,151; */
#define IST_REFUSED_SHEET 8
/* the packet log is not in form, or names a link that is not in the job. */
#define IST_REFUSED_LOG 9

/* The longest job frame, the longest answer frame and the longest step sheet, in bytes. */
#define IST_JOB_MOST 1539
#define IST_ANSWER_MOST 1025
#define IST_SHEET_MOST 1410
/* The most bytes of costs in link order. */
#define IST_COSTS_MOST 768
/* The most links of a job, and the most pairs of an answer. */
#define IST_LINKS_MOST 256
#define IST_PAIRS_MOST 63

/* From ist_replay, in place of a number of packets: after none. No log has so many packets. */
#define IST_NEVER ((size_t)-1)

/* Answers a job frame: the new costs with the fewest steps and among those the lowest, and a pairing that proves it, as an
 * answer frame in the area. 0 or a refusal; *written is the answer's length, or 0 if refused. */
int32_t ist_answer(const uint8_t *job, size_t job_len, uint8_t *area, size_t area_len, size_t *written);

/* Is the marked tree of a job frame cheapest? IST_YES (0), IST_NO (-1), or a refusal 1 to 6: 0 is YES. */
int32_t ist_judge(const uint8_t *job, size_t job_len);

/* Is a frame an answer to the job frame, with the fewest steps, as its own pairing proves? IST_YES (0), IST_NO (-1), or a
 * refusal of the job, 1 to 6: 0 is YES. */
int32_t ist_judge_answer(const uint8_t *job, size_t job_len, const uint8_t *answer, size_t answer_len);

/* Where a link's four numbers stand in its job frame: *offset and *length, in bytes; both 0 if the job is refused or has no
 * such link. */
void ist_find_link(const uint8_t *job, size_t job_len, uint32_t link, size_t *offset, size_t *length);

/* Where a link's new cost stands in an answer frame: *offset and *length, in bytes; both 0 if the job is refused or has no
 * such link, or the answer is not judged yes. The answer is judged at each call: for all costs call ist_read_answer, which
 * judges it once. */
void ist_find_cost(const uint8_t *job, size_t job_len, const uint8_t *answer, size_t answer_len, uint32_t link,
                   size_t *offset, size_t *length);

/* Writes the step sheet of new costs into the area: which links move, and by how much. The costs are one number a link, in link
 * order and in shortest form of one to three bytes, as an answer frame holds them behind its first number; they need not make
 * the marked tree cheapest. 0, a refusal of the job, 1 to 6, 8 if the costs are not just that, or 7; *written is the sheet's
 * length, or 0 if refused. IST_SHEET_MOST bytes are enough for every sheet. */
int32_t ist_sheet(const uint8_t *job, size_t job_len, const uint8_t *costs, size_t costs_len, uint8_t *area, size_t area_len,
                  size_t *written);

/* Applies a step sheet, made here or elsewhere, to the job's costs, and writes the costs that it leads to into the area, one
 * number a link in link order. 0, a refusal of the job, 1 to 6, 8 if the sheet is not in form or a cost would leave 0 to
 * 2,097,151, or 7; *written is the length of the costs, or 0 if refused (of a job without links it is 0 too: look at the
 * result). IST_COSTS_MOST bytes are enough for all costs. For the same job each of the two functions undoes the other, byte for
 * byte. */
int32_t ist_apply_sheet(const uint8_t *job, size_t job_len, const uint8_t *sheet, size_t sheet_len, uint8_t *area,
                        size_t area_len, size_t *written);

/* Replays a log of step packets over the job's costs, one by one, and writes the final costs into the area, one number a link in
 * link order. A packet is two numbers, each in shortest form of one to three bytes: a link, then 1 if its cost goes up by one or
 * 0 if it goes down. A log is packets up to its last byte; it has no count and may be empty. A packet that would take a cost
 * below 0 or above 2,097,151 leaves it, and counts like any other. 0, a refusal of the job, 1 to 6, 9 if the log is not just
 * packets of the job's links, or 7; *written is the length of the costs, or 0 if refused (of a job without links it is 0 too:
 * look at the result). *first is the least number of packets after which the marked tree was cheapest: 0 if it was so from the
 * start, IST_NEVER if it was so after none, or if refused. IST_COSTS_MOST bytes are enough for all costs. No log whose final
 * costs make the tree cheapest has fewer packets than the steps of ist_answer. */
int32_t ist_replay(const uint8_t *job, size_t job_len, const uint8_t *log, size_t log_len, uint8_t *area, size_t area_len,
                   size_t *written, size_t *first);

/* A link as a record: its two ends, its cost, its mark (1 tree, 0 spare, 2 laid but not plugged). */
typedef struct {
    uint32_t end1;
    uint32_t end2;
    uint32_t cost;
    uint32_t mark;
} ist_link;

/* Reads a job frame into an array of links, in link order. `numbers` is the room in the array in numbers, four to a link: 4 * n
 * for an array of n links; 4 * IST_LINKS_MOST is enough for every job. 0 or a refusal 1 to 7; *stations and *count are the job's
 * station count and link count, or both 0 if refused. Links behind *count stay as they were; all do if refused. */
int32_t ist_read_job(const uint8_t *job, size_t job_len, ist_link *links, size_t numbers, uint32_t *stations, size_t *count);

/* Judges a frame as an answer to the job frame, as ist_judge_answer does and only once, and if it is one reads it: *steps; into
 * `costs` the new cost of each link in link order, *cost_count of them, which is the job's link count; into `pairs` the pairs in
 * the frame's order, *pair_count of them, two numbers each: tree link, spare link. costs_len and pairs_len are the room in
 * numbers; IST_LINKS_MOST and 2 * IST_PAIRS_MOST are enough for every answer. IST_YES (0), IST_NO (-1), a refusal of the job, 1
 * to 6, or 7 for an answer judged yes if an array is too short: 0 is YES. If it is not 0, *steps and both counts are 0 and both
 * arrays stay as they were; numbers behind what is written always do. */
int32_t ist_read_answer(const uint8_t *job, size_t job_len, const uint8_t *answer, size_t answer_len, uint32_t *costs,
                        size_t costs_len, uint32_t *pairs, size_t pairs_len, uint32_t *steps, size_t *cost_count,
                        size_t *pair_count);

/* The same on a list of links: exactly what the functions above say of the frame that holds the station count, the list's
 * length and its records in order; refusal 1 if one of these numbers is above 2,097,151. A judge's 0 is YES here too, and
 * ist_find_cost_list judges the answer at each call. */
int32_t ist_answer_list(uint32_t stations, const ist_link *links, size_t count, uint8_t *area, size_t area_len,
                        size_t *written);
int32_t ist_judge_list(uint32_t stations, const ist_link *links, size_t count);
int32_t ist_judge_answer_list(uint32_t stations, const ist_link *links, size_t count, const uint8_t *answer,
                              size_t answer_len);
void ist_find_cost_list(uint32_t stations, const ist_link *links, size_t count, const uint8_t *answer, size_t answer_len,
                        uint32_t link, size_t *offset, size_t *length);

/* Writes the job frame of a list into the area. 0 or a refusal 1 to 7; *written is the frame's length, or 0 if refused. */
int32_t ist_write_job(uint32_t stations, const ist_link *links, size_t count, uint8_t *area, size_t area_len,
                      size_t *written);

#ifdef __cplusplus
}
#endif

#endif
