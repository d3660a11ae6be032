/* See movers.h. */
#include <string.h>

#include "check.h"
#include "generate.h"
#include "movers.h"
#include "vary.h"

enum { TRIED = 3, AREAS_IN = 4 };

static int32_t call_sheet(uint8_t *area, size_t area_length, size_t *written)
{
    return ist_sheet(lent.job, lent.job_length, lent.answer, lent.answer_length, area, area_length, written);
}

static int32_t call_apply_sheet(uint8_t *area, size_t area_length, size_t *written)
{
    return ist_apply_sheet(lent.job, lent.job_length, lent.answer, lent.answer_length, area, area_length, written);
}

static const struct writer sheet_writer = {"ist_sheet", call_sheet};
static const struct writer costs_writer = {"ist_apply_sheet", call_apply_sheet};

void hold_writer(const struct writer *writer, const uint8_t *in, size_t in_length, int32_t word, const uint8_t *out,
                 size_t out_length)
{
    static uint8_t got[AREA_ROOM];
    size_t got_length;

    lend_answer(in, in_length);
    expect(writer->name, write_once(writer, got, &got_length), word);
    if (word == IST_OK && (got_length != out_length || memcmp(got, out, out_length) != 0))
        differ("%s: other bytes", writer->name);
    if (thorough || pick(AREAS_IN) == 0)
        check_areas(writer, word, out, out_length);
    if (memcmp(lent.answer, in, in_length) != 0)
        differ("%s changes what goes in", writer->name);
}

static void count_word(int32_t word, size_t *done, size_t *refused)
{
    size_t *count = word == IST_OK ? done : word == IST_REFUSED_SHEET ? refused : &counts.moves_refused;

    ++*count;
}

void check_costs(int refusal, const struct job *job, const uint8_t *costs, size_t length)
{
    static int32_t cost[EDGES_MOST];
    static struct sheet sheet;
    static uint8_t made[SHEET_ROOM];
    size_t made_length = 0;
    int32_t word = refusal != 0 ? refusal : read_costs(job, costs, length, cost) ? IST_OK : IST_REFUSED_SHEET;

    if (word == IST_OK) {
        make_sheet(job, cost, &sheet);
        made_length = put_sheet(made, &sheet);
    }
    hold_writer(&sheet_writer, costs, length, word, made, made_length);
    if (word == IST_OK)
        hold_writer(&costs_writer, made, made_length, IST_OK, costs, length);
    count_word(word, &counts.sheets_made, &counts.costs_refused);
    counts.sheet_longest = made_length > counts.sheet_longest ? made_length : counts.sheet_longest;
}

void check_sheet(int refusal, const struct job *job, const uint8_t *sheet, size_t length)
{
    static struct sheet contents;
    static int32_t cost[EDGES_MOST];
    static uint8_t made[SHEET_ROOM];
    bool in_form = refusal == 0 && read_sheet(job, sheet, length, &contents);
    bool applied = in_form && apply_sheet(job, &contents, cost);
    int32_t word = refusal != 0 ? refusal : applied ? IST_OK : IST_REFUSED_SHEET;
    size_t made_length = applied ? put_costs(made, cost, job->edges) : 0;

    hold_writer(&costs_writer, sheet, length, word, made, made_length);
    if (applied)
        hold_writer(&sheet_writer, made, made_length, IST_OK, sheet, length);
    count_word(word, &counts.sheets_applied, &counts.sheets_refused);
    counts.sheets_leaving += in_form && !applied;
}

/* The changes of the library's sheet add up to the steps. */
static void check_answer_costs(const struct given *given)
{
    static struct numbers numbers;
    static struct sheet sheet;
    static uint8_t written[AREA_ROOM];
    size_t written_length;

    divide(given->frame, given->length, STEP_BYTES, &numbers);
    const uint8_t *costs = given->frame + numbers.start[1];
    size_t length = numbers.start[1 + given->job->edges] - numbers.start[1];
    check_costs(0, given->job, costs, length);
    lend_answer(costs, length);
    write_once(&sheet_writer, written, &written_length);
    if (!read_sheet(given->job, written, written_length, &sheet))
        differ("ist_sheet writes what is no sheet in form");
    expect("the changes of the answer's sheet", steps_of(&sheet), given->answer.steps);
}

/* How many of so many kinds are tried. */
static uint32_t tries(int refusal, uint32_t kinds)
{
    return refusal != 0 ? 1 : thorough ? kinds : TRIED;
}

typedef size_t vary_bytes(uint32_t which, const struct job *job, uint8_t *to);
typedef void check_bytes(int refusal, const struct job *job, const uint8_t *bytes, size_t length);

static void check_some(int refusal, const struct job *job, uint32_t kinds, vary_bytes *vary, check_bytes *check)
{
    static uint8_t bytes[SHEET_ROOM];
    uint32_t tried = tries(refusal, kinds);

    for (uint32_t i = 0; i < tried; i++) {
        size_t length = vary(tried == kinds ? i : pick(kinds), job, bytes);
        check(refusal, job, bytes, length);
    }
}

void check_moves(int refusal, const struct given *given)
{
    if (refusal == 0)
        check_answer_costs(given);
    check_some(refusal, given->job, costs_variations, vary_costs, check_costs);
    check_some(refusal, given->job, sheet_variations, vary_sheet, check_sheet);
}
