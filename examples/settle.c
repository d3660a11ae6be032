/* Settles one job from C: a triangle of three stations, whose marked tree (links 0 and 1) is not cheapest.
 * Built and run by examples/run. */
#include <stdio.h>
#include <string.h>

#include "ist.h"

int main(void) {
    const ist_link links[] = {
        {0, 1, 5, 1},
        {1, 2, 4, 1},
        {0, 2, 2, 0},
    };
    const size_t count = sizeof links / sizeof links[0];
    const uint32_t stations = 3;

    /* The job as a frame, for instance to send it to a throttle. */
    uint8_t job[IST_JOB_MOST];
    size_t job_len;
    int32_t refusal = ist_write_job(stations, links, count, job, sizeof job, &job_len);
    if (refusal != IST_OK) {
        printf("refused %d\n", (int)refusal);
        return 1;
    }
    printf("job of %zu bytes\n", job_len);

    int32_t verdict = ist_judge(job, job_len);
    if (verdict != IST_YES && verdict != IST_NO) {
        printf("refused %d\n", (int)verdict);
        return 1;
    }
    printf("the marked tree is %s\n", verdict == IST_YES ? "cheapest" : "not cheapest");

    uint8_t answer[IST_ANSWER_MOST];
    size_t answer_len;
    refusal = ist_answer(job, job_len, answer, sizeof answer, &answer_len);
    if (refusal != IST_OK) {
        printf("refused %d\n", (int)refusal);
        return 1;
    }
    printf("answer of %zu bytes, judged %s\n", answer_len,
           ist_judge_answer(job, job_len, answer, answer_len) == IST_YES ? "yes" : "no");

    /* What the answer says. It is judged once more; for a frame made elsewhere this call alone is enough. */
    uint32_t costs[IST_LINKS_MOST], pairs[2 * IST_PAIRS_MOST], steps;
    size_t cost_count, pair_count;
    verdict = ist_read_answer(job, job_len, answer, answer_len, costs, IST_LINKS_MOST, pairs, 2 * IST_PAIRS_MOST, &steps,
                              &cost_count, &pair_count);
    if (verdict != IST_YES) {
        printf("not read: %d\n", (int)verdict);
        return 1;
    }
    printf("steps %u\n", steps);
    for (size_t link = 0; link < cost_count; link++)
        printf("link %zu: cost %u becomes %u\n", link, links[link].cost, costs[link]);
    for (size_t pair = 0; pair < pair_count; pair++)
        printf("pair: tree link %u, spare link %u\n", pairs[2 * pair], pairs[2 * pair + 1]);

    /* The changes for a throttle. The new costs stand side by side in the answer, from the first link's to the last one's. */
    size_t first, first_len, last, last_len, sheet_len;
    uint8_t sheet[IST_SHEET_MOST];
    ist_find_cost(job, job_len, answer, answer_len, 0, &first, &first_len);
    ist_find_cost(job, job_len, answer, answer_len, (uint32_t)count - 1, &last, &last_len);
    refusal = ist_sheet(job, job_len, answer + first, last + last_len - first, sheet, sizeof sheet, &sheet_len);
    if (refusal != IST_OK) {
        printf("refused %d\n", (int)refusal);
        return 1;
    }
    printf("step sheet:");
    for (size_t i = 0; i < sheet_len; i++)
        printf(" %02x", sheet[i]);
    printf("\n");

    /* What a throttle makes of it: the new costs again. */
    uint8_t new_costs[IST_COSTS_MOST];
    size_t new_len;
    refusal = ist_apply_sheet(job, job_len, sheet, sheet_len, new_costs, sizeof new_costs, &new_len);
    if (refusal != IST_OK) {
        printf("refused %d\n", (int)refusal);
        return 1;
    }
    printf("applied: %zu bytes of costs, %s\n", new_len,
           memcmp(new_costs, answer + first, new_len) == 0 ? "those of the answer" : "others");

    /* The job again, as a host reads it that is sent the frame. */
    ist_link read[IST_LINKS_MOST];
    uint32_t read_stations;
    size_t read_count;
    refusal = ist_read_job(job, job_len, read, 4 * IST_LINKS_MOST, &read_stations, &read_count);
    if (refusal != IST_OK) {
        printf("refused %d\n", (int)refusal);
        return 1;
    }
    printf("read again: %u stations, %zu links, the last %u - %u\n", read_stations, read_count, read[read_count - 1].end1,
           read[read_count - 1].end2);

    /* An area that is too short is refused, and nothing is written. */
    refusal = ist_answer(job, job_len, answer, answer_len - 1, &answer_len);
    printf("in an area one byte shorter: refused %d, %zu bytes written\n", (int)refusal, answer_len);
    return 0;
}
