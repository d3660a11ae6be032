/* See lists.h. */
#include "check.h"
#include "lend.h"
#include "lists.h"

static int32_t call_answer_list(uint8_t *area, size_t area_length, size_t *written)
{
    counts.list_calls++;
    return ist_answer_list(lent.stations, lent.links, lent.links_count, area, area_length, written);
}

static int32_t call_write_job(uint8_t *area, size_t area_length, size_t *written)
{
    counts.list_calls++;
    return ist_write_job(lent.stations, lent.links, lent.links_count, area, area_length, written);
}

static const struct writer answer_writer = {"ist_answer_list", call_answer_list};
static const struct writer job_writer = {"ist_write_job", call_write_job};

void lend_records(const struct numbers *numbers)
{
    const uint32_t *value = numbers->value;

    lent.links = NULL;
    if (!numbers->whole || numbers->count < 2 || numbers->count > NUMBERS_MOST)
        return;
    if (numbers->count != 2 + 4 * (size_t)value[1])
        return;
    ist_link *links = lend_links(value[0], value[1]);
    for (size_t e = 0; e < value[1]; e++) {
        const uint32_t *four = &value[2 + 4 * e];
        links[e] = (ist_link){four[0], four[1], four[2], four[3]};
    }
}

void lend_edges(uint32_t nodes, const struct edge *edge, size_t count)
{
    ist_link *links = lend_links(nodes, count);

    for (size_t e = 0; e < count; e++)
        links[e] = (ist_link){edge[e].end1, edge[e].end2, edge[e].cost, edge[e].mark};
}

void check_list_judge(int32_t wanted)
{
    if (lent.links == NULL)
        return;
    expect("ist_judge_list", ist_judge_list(lent.stations, lent.links, lent.links_count), wanted);
    counts.list_calls++;
}

void check_list_offer(int32_t wanted)
{
    if (lent.links == NULL)
        return;
    expect("ist_judge_answer_list",
           ist_judge_answer_list(lent.stations, lent.links, lent.links_count, lent.answer, lent.answer_length), wanted);
    counts.list_calls++;
}

bool find_list_cost(uint32_t link, size_t *offset, size_t *length)
{
    if (lent.links == NULL)
        return false;
    ist_find_cost_list(lent.stations, lent.links, lent.links_count, lent.answer, lent.answer_length, link, offset, length);
    counts.list_calls++;
    return true;
}

void check_list_writers(int refusal, const uint8_t *answer, size_t length)
{
    if (lent.links == NULL)
        return;
    check_areas(&answer_writer, refusal, answer, length);
    check_areas(&job_writer, refusal, lent.job, lent.job_length);
    counts.lists++;
    counts.lists_refused[refusal]++;
}
