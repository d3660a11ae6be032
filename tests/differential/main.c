/* Holds the library to the reference, frame by frame.
 *
 * Run: compare [COUNT] [SEED]    COUNT random frames (default 1000000) besides the fixed ones, from SEED (default 1).
 * It prints how many frames of each kind were checked and OK, or the first difference with its frame and exits with 1. */
#include <stdio.h>
#include <stdlib.h>
#include <string.h>

#include "check.h"
#include "generate.h"
#include "lend.h"
#include "movers.h"
#include "packets.h"
#include "replays.h"
#include "rows.h"
#include "sheets.h"

#define COUNT_OF(array) (sizeof(array) / sizeof(array)[0])

enum { LONG_LIST = 1 << 20 };

static uint8_t frame[JOB_ROOM];
static struct job job;
/* The job's, where logs are tried on it. */
static struct solution solution;

static size_t frames_reported, moves_reported, logs_reported;

/* How many costs and sheets were tried. */
static size_t moves_tried(void)
{
    return counts.sheets_made + counts.costs_refused + counts.sheets_applied + counts.sheets_refused + counts.moves_refused;
}

static size_t logs_tried(void)
{
    return counts.logs_at_start + counts.logs_later + counts.logs_never + counts.logs_refused + counts.logs_refused_with_job;
}

static void print_kind(size_t count, const char *kind)
{
    printf("%9zu %s\n", count, kind);
    fflush(stdout);
    frames_reported = counts.frames;
    moves_reported = moves_tried();
    logs_reported = logs_tried();
}

/* Prints how many frames were checked since the last report. */
static void report(const char *kind)
{
    print_kind(counts.frames - frames_reported, kind);
}

/* The same of costs and sheets. */
static void report_moves(const char *kind)
{
    print_kind(moves_tried() - moves_reported, kind);
}

/* The same of packet logs. */
static void report_logs(const char *kind)
{
    print_kind(logs_tried() - logs_reported, kind);
}

/* Fixed frames. */

static void check_rows(void)
{
    uint8_t answer[ROW_ROOM];

    thorough = true;
    for (size_t i = 0; i < ROWS; i++) {
        check_frame(frame, from_hex(rows[i].job, frame));
        expect_answer(rows[i].refusal, answer, from_hex(rows[i].answer, answer));
    }
    check_frame(frame, from_hex(thirteen, frame));
    thorough = false;
    report("rows of document 01, of numbers of three and four bytes, and of unplugged links");
}

/* Two stations and links between them: the first is the tree; every third from the second on is unplugged and cheapest. */
static void fill_parallel(struct edge *edge, size_t count)
{
    for (size_t e = 0; e < count; e++)
        edge[e] = e % 3 == 1 ? (struct edge){0, 1, 3, UNPLUGGED} : (struct edge){0, 1, e == 0 ? 5 : 4, e == 0 ? TREE : SPARE};
}

static void check_link_counts(void)
{
    static struct edge edge[300];
    const size_t tried[] = {127, 128, 255, 256, 257, 258, 300};

    fill_parallel(edge, COUNT_OF(edge));
    for (size_t i = 0; i < COUNT_OF(tried); i++)
        check_frame(frame, put_edges(frame, 2, edge, tried[i]));
    report("jobs of 127 to 300 parallel links");
}

typedef void bytes_visit(const uint8_t *bytes, size_t length);

/* All of 0 to 2 bytes. */
static void each_short(bytes_visit *visit)
{
    uint8_t bytes[2] = {0, 0};

    visit(bytes, 0);
    for (uint32_t both = 0; both < 65536; both++) {
        bytes[0] = (uint8_t)both;
        bytes[1] = (uint8_t)(both >> 8);
        if (both < 256)
            visit(bytes, 1);
        visit(bytes, 2);
    }
}

/* All of 3 to 5 bytes that begin, continue and end numbers. */
static void each_odd(bytes_visit *visit)
{
    const uint8_t odd[] = {0x00, 0x01, 0x02, 0x7f, 0x80, 0x81, 0xff};
    uint8_t bytes[5];

    for (size_t length = 3, choices = 343; length <= sizeof bytes; length++, choices *= COUNT_OF(odd))
        for (size_t which = 0; which < choices; which++) {
            size_t left = which;
            for (size_t i = 0; i < length; i++, left /= COUNT_OF(odd))
                bytes[i] = odd[left % COUNT_OF(odd)];
            visit(bytes, length);
        }
}

static void check_short_frames(void)
{
    each_short(check_frame);
    report("frames of 0 to 2 bytes: all");
    each_odd(check_frame);
    report("frames of 3 to 5 bytes that are 00, 01, 02, 7f, 80, 81 or ff: all");
}

/* Links whose four numbers have three bytes each, and then each byte of the frame in turn changed: wherever a number stands,
 * it is read and tested the same way. */
static void check_long_numbers(void)
{
    const uint8_t odd[] = {0x00, 0x01, 0x7f, 0x80, 0xff};

    job.nodes = 2;
    job.edges = 40;
    for (size_t e = 0; e < job.edges; e++)
        job.edge[e] = (struct edge){16384, 65537, COST_MOST, 65536};
    size_t length = put_job(frame, &job);
    check_frame(frame, length);
    expect_answer(4, frame, 0);
    for (size_t place = 0; place < length; place++) {
        uint8_t kept = frame[place];
        for (size_t i = 0; i < COUNT_OF(odd); i++) {
            frame[place] = odd[i];
            check_frame(frame, length);
        }
        frame[place] = kept;
    }
    report("frames of numbers of three bytes, with a byte changed");
}

static void check_job(const struct job *made)
{
    check_frame(frame, put_job(frame, made));
}

static void check_small_jobs(void)
{
    thorough = true;
    each_small_job(check_job);
    thorough = false;
    report("jobs of at most 3 stations, 3 links, costs 0 to 1, marks 0 to 2: all");
}

static void check_longest_jobs(void)
{
    for (size_t tried = 0; tried < 20; tried++) {
        random_job(&job, NODES_MOST, EDGES_MOST, true);
        for (size_t e = 0; e < EDGES_MOST; e++)
            job.edge[e].cost |= 16384;
        size_t length = put_job(frame, &job);
        expect("the longest job's length", (int64_t)length, IST_JOB_MOST);
        check_frame(frame, length);
        check_frame(frame, length - 1);
        frame[length] = (uint8_t)pick(2);
        check_frame(frame, length + 1);
    }
    report("jobs of 1,539 bytes, a byte less and a byte more");
}

/* A path of tree links at the end, a cheaper spare along each, and spares in front that are as dear. */
static void fill_longest_answer(uint32_t spare_cost)
{
    const size_t trees = NODES_MOST - 1, first_tree = EDGES_MOST - trees, first_cheap = first_tree - trees;

    job.nodes = NODES_MOST;
    job.edges = EDGES_MOST;
    for (size_t e = 0; e < first_cheap; e++)
        job.edge[e] = (struct edge){0, 1, COST_MOST, SPARE};
    for (uint32_t v = 0; v < trees; v++) {
        job.edge[first_cheap + v] = (struct edge){v, v + 1, spare_cost, SPARE};
        job.edge[first_tree + v] = (struct edge){v, v + 1, COST_MOST, TREE};
    }
}

static void check_longest_answer(void)
{
    fill_longest_answer(16384);
    check_job(&job);
    expect("the longest answer's length", (int64_t)counts.answer_longest, IST_ANSWER_MOST);
    fill_longest_answer(0);
    check_job(&job);
    expect("the most steps", (int64_t)counts.steps_most, (int64_t)COST_MOST * (NODES_MOST - 1));
    report("jobs of the longest answer and of most steps");
}

static void fill_frame(const char *filler, size_t length)
{
    uint8_t part[ROW_ROOM];
    size_t size = from_hex(filler, part);

    for (size_t i = 0; i < length; i++)
        frame[i] = part[i % size];
}

/* One byte or one number all through; a row's job before it; one that begins a number behind it. */
static void check_long_frames(void)
{
    const size_t lengths[] = {1538, 1539, 1540, 16384, 65536, 1000000};
    const char *const fillers[] = {"00", "01", "7F", "80", "FF", "FF 7F", "80 80 01", "FF FF FF 01"};

    for (size_t i = 0; i < COUNT_OF(lengths); i++)
        for (size_t j = 0; j < COUNT_OF(fillers); j++) {
            fill_frame(fillers[j], lengths[i]);
            check_frame(frame, lengths[i]);
            from_hex(rows[0].job, frame);
            check_frame(frame, lengths[i]);
            frame[lengths[i] - 1] = 0x80;
            check_frame(frame, lengths[i]);
        }
    report("frames of 1,538 to 1,000,000 bytes");
}

/* Lists. */

static const uint32_t odd_values[] = {16383, 16384, 65536, COST_MOST, COST_MOST + 1, (uint32_t)1 << 24, (uint32_t)1 << 31,
                                      UINT32_MAX};

/* A record's first, second, third or fourth number. */
static uint32_t *number_of(struct edge *edge, size_t place)
{
    return (uint32_t *[]){&edge->end1, &edge->end2, &edge->cost, &edge->mark}[place];
}

/* The number in the place, counted as the frame's but without the link count. */
static uint32_t *number_at(struct job *in, size_t place)
{
    return place == 0 ? &in->nodes : number_of(&in->edge[(place - 1) / 4], (place - 1) % 4);
}

/* The job's list with another number in one place. */
static void check_odd_list(size_t place, uint32_t value)
{
    uint32_t *number = number_at(&job, place), kept = *number;

    *number = value;
    check_list(job.nodes, job.edge, job.edges);
    *number = kept;
}

/* Each odd value in each place, and added to what is there; or one of both. */
static void check_odd_places(bool both)
{
    for (size_t place = 0; place <= 4 * job.edges; place++)
        for (size_t i = 0; i < COUNT_OF(odd_values); i++) {
            uint32_t there = *number_at(&job, place), first = pick(2) == 0 ? 0 : there;
            check_odd_list(place, odd_values[i] + first);
            if (both)
                check_odd_list(place, odd_values[i] + (there - first));
        }
}

/* A list with a number too large in one place of one record. */
static void check_large_number(struct edge *edge, size_t count, size_t record, size_t place)
{
    uint32_t *number = number_of(&edge[record], place), kept = *number;

    *number = COST_MOST + 1;
    check_list(2, edge, count);
    expect_answer(1, frame, 0);
    *number = kept;
}

/* The same in each place of the first record, of the last and of record 257; in a long list, which takes its time, only in
 * its first place, its last and one of record 257, and only in its first if its length is too large too. */
static void check_large_numbers(struct edge *edge, size_t count)
{
    const size_t record[] = {0, count - 1, EDGES_MOST}, place_if_long[] = {0, 3, 2};
    size_t records = count > COST_MOST ? 1 : count > EDGES_MOST ? 3 : 2;

    for (size_t i = 0; i < records; i++)
        for (size_t place = 0; place < 4; place++)
            if (count < LONG_LIST || place == place_if_long[i])
                check_large_number(edge, count, record[i], place);
}

/* Right but for the length; and with a number too large. */
static void check_list_lengths(void)
{
    static struct edge edge[LINKS_ROOM];
    const size_t tried[] = {1, 2, 255, 256, 257, 300, 512, 16383, 16384, 16385, 65536, 65538,
                            COST_MOST, COST_MOST + 1, COST_MOST + 2};

    fill_parallel(edge, LINKS_ROOM);
    for (size_t i = 0; i < COUNT_OF(tried); i++) {
        check_large_numbers(edge, tried[i]);
        check_list(2, edge, tried[i]);
        if (tried[i] > EDGES_MOST)
            expect_answer(tried[i] > COST_MOST ? 1 : 2, frame, 0);
    }
}

static void check_lists(void)
{
    const uint32_t stations[] = {0, 1, 2, 63, 64, 65, 256, 257, 16383, 16384, 65537,
                                 COST_MOST - 1, COST_MOST, COST_MOST + 1, COST_MOST + 2, UINT32_MAX};

    for (size_t i = 0; i < COUNT_OF(stations); i++) {
        check_list(stations[i], NULL, 0);
        if (stations[i] > NODES_MOST)
            expect_answer(stations[i] > COST_MOST ? 1 : 2, frame, 0);
    }
    check_list_lengths();
    for (size_t tried = 0; tried < 30; tried++) {
        random_job(&job, 4, 6, false);
        check_odd_places(true);
    }
    random_job(&job, NODES_MOST, EDGES_MOST, true);
    check_odd_places(false);
    report("lists with odd lengths and numbers");
}

/* Costs and step sheets, for the job lent. */

/* The reference is held to the rows by its own test. */
static void check_sheet_row(const struct sheet_row *row)
{
    static struct numbers numbers;
    uint8_t bytes[ROW_ROOM];
    size_t length = from_hex(row->job, frame);

    divide(frame, length, NUMBER_BYTES, &numbers);
    lend_job(frame, length);
    expect("the row's refusal", read_job(&numbers, &job), 0);
    if (row->sheet != NULL)
        check_sheet(0, &job, bytes, from_hex(row->sheet, bytes));
    if (row->costs != NULL)
        check_costs(0, &job, bytes, from_hex(row->costs, bytes));
}

static void check_sheet_rows(void)
{
    thorough = true;
    for (size_t i = 0; i < SHEET_ROWS; i++)
        check_sheet_row(&sheet_rows[i]);
    thorough = false;
    report_moves("rows of costs and step sheets");
}

static const uint32_t odd_costs[] = {0, 1, 2, COST_MOST - 1, COST_MOST};

/* A job of parallel links, the first with this one of the odd costs. */
static void lend_parallel(size_t links, size_t first)
{
    job.nodes = links == 0 ? 1 : 2;
    job.edges = links;
    fill_parallel(job.edge, links);
    for (size_t e = 0; e < links; e++)
        job.edge[e].cost = odd_costs[(first + 2 * e) % COUNT_OF(odd_costs)];
    lend_job(frame, put_job(frame, &job));
}

static void check_both(const uint8_t *bytes, size_t length)
{
    check_costs(0, &job, bytes, length);
    check_sheet(0, &job, bytes, length);
}

static void check_short_sheets(void)
{
    for (size_t links = 0; links <= 2; links++) {
        lend_parallel(links, 1);
        each_short(check_both);
        each_odd(check_both);
    }
    report_moves("costs and sheets of 0 to 2 bytes, and of 3 to 5 as above, for jobs of 0 to 2 links: all");
}

enum { MOVES_TRIED = 3, CODES_TRIED = 6 };

/* The sheets that begin with these moves and have at most so many more, of any link of the job or the next and of any low
 * code, under right and wrong counts. */
static void check_more_moves(struct sheet *sheet, size_t more)
{
    uint8_t bytes[ROW_ROOM];
    uint32_t choices = more == 0 ? 0 : CODES_TRIED * ((uint32_t)job.edges + 1);

    for (uint32_t count = 0; count <= MOVES_TRIED + 1; count++)
        check_sheet(0, &job, bytes, put_moves(bytes, count, sheet->move, sheet->moves));
    for (uint32_t choice = 0; choice < choices; choice++) {
        sheet->move[sheet->moves++] = (struct move){choice / CODES_TRIED, choice % CODES_TRIED};
        check_more_moves(sheet, more - 1);
        sheet->moves--;
    }
}

/* One move from one end of the range to the other, nearly, or farther. */
static void check_far_moves(void)
{
    const uint32_t far = 2 * COST_MOST, code[] = {far - 2, far - 1, far, far + 1, far + 2, CODE_MOST - 1, CODE_MOST};
    uint8_t bytes[ROW_ROOM];

    for (uint32_t edge = 0; edge <= job.edges; edge++)
        for (size_t i = 0; i < COUNT_OF(code); i++)
            check_sheet(0, &job, bytes, put_moves(bytes, 1, &(struct move){edge, code[i]}, 1));
}

static void check_few_moves(void)
{
    static struct sheet sheet;

    for (size_t links = 0; links <= 3; links++)
        for (size_t first = 0; first < (links == 0 ? 1 : COUNT_OF(odd_costs)); first++) {
            lend_parallel(links, first);
            check_more_moves(&sheet, MOVES_TRIED);
            check_far_moves();
        }
    report_moves("sheets of up to 3 moves with codes 0 to 5, and of 1 with a long code, for jobs of 0 to 3 links: all");
}

/* All links of the largest job move from one end of the range to the other. */
static void check_longest_sheet(uint32_t from, int32_t to)
{
    static int32_t cost[EDGES_MOST];
    uint8_t costs[SHEET_ROOM];

    random_job(&job, NODES_MOST, EDGES_MOST, true);
    for (size_t e = 0; e < EDGES_MOST; e++) {
        job.edge[e].cost = from;
        cost[e] = to;
    }
    size_t length = put_costs(costs, cost, EDGES_MOST);
    expect("the length of the costs", (int64_t)length, to == 0 ? EDGES_MOST : IST_COSTS_MOST);
    lend_job(frame, put_job(frame, &job));
    check_costs(0, &job, costs, length);
}

static void check_longest_sheets(void)
{
    thorough = true;
    check_longest_sheet(0, COST_MOST);
    expect("the longest sheet's length", (int64_t)counts.sheet_longest, IST_SHEET_MOST);
    check_longest_sheet(COST_MOST, 0);
    thorough = false;
    report_moves("costs with the longest sheet");
}

/* For the largest job, which is still lent: one number all through, and behind the count of a full sheet. */
static void check_long_sheets(void)
{
    const size_t lengths[] = {255, 256, 257, 767, 768, 769, 1409, 1410, 1411, 2048, 65536, 1000000};
    const char *const fillers[] = {"00", "01", "80", "FF", "FF 7F", "FF FF 7F", "FF FF FF 01", "80 80 80 80 01"};

    for (size_t i = 0; i < COUNT_OF(lengths); i++)
        for (size_t j = 0; j < COUNT_OF(fillers); j++) {
            fill_frame(fillers[j], lengths[i]);
            check_both(frame, lengths[i]);
            put_number(frame, EDGES_MOST);
            check_both(frame, lengths[i]);
        }
    report_moves("costs and sheets of 255 to 1,000,000 bytes");
}

static void check_sheets(void)
{
    check_sheet_rows();
    check_short_sheets();
    check_few_moves();
    check_longest_sheets();
    check_long_sheets();
}

/* Packet logs, for the job lent. */

static void check_log_bytes(const uint8_t *bytes, size_t length)
{
    check_log(0, &job, solution.steps, bytes, length);
}

static void lend_solved(void)
{
    solve(&job, &solution);
    lend_job(frame, put_job(frame, &job));
}

/* The reference is held to the rows by its own test. */
static void check_log_row(const struct log_row *row)
{
    static struct numbers numbers;
    uint8_t bytes[ROW_ROOM];
    size_t length = from_hex(row->job, frame);

    divide(frame, length, NUMBER_BYTES, &numbers);
    expect("the row's refusal", read_job(&numbers, &job), 0);
    lend_solved();
    check_log_bytes(bytes, from_hex(row->log, bytes));
}

static void check_log_rows(void)
{
    thorough = true;
    for (size_t i = 0; i < LOG_ROWS; i++)
        check_log_row(&log_rows[i]);
    thorough = false;
    report_logs("rows of packet logs");
}

static void check_short_logs(void)
{
    for (size_t links = 0; links <= 2; links++) {
        lend_parallel(links, 1);
        solve(&job, &solution);
        each_short(check_log_bytes);
        each_odd(check_log_bytes);
    }
    report_logs("logs of 0 to 2 bytes, and of 3 to 5 as above, for jobs of 0 to 2 links: all");
}

enum { PACKETS_TRIED = 3 };

/* The logs that begin with these bytes and have at most so many more packets, of any of so many edges and ways. */
static void check_more_packets(uint8_t *bytes, size_t length, size_t more, uint8_t edges, uint8_t ways)
{
    check_log_bytes(bytes, length);
    for (uint8_t edge = 0; more > 0 && edge < edges; edge++)
        for (uint8_t way = 0; way < ways; way++) {
            bytes[length] = edge;
            bytes[length + 1] = way;
            check_more_packets(bytes, length + 2, more - 1, edges, ways);
        }
}

/* A link and a direction that do not exist are among them. */
static void check_few_packets(void)
{
    uint8_t bytes[2 * PACKETS_TRIED];

    for (size_t links = 0; links <= 3; links++)
        for (size_t first = 0; first < (links == 0 ? 1 : COUNT_OF(odd_costs)); first++) {
            lend_parallel(links, first);
            solve(&job, &solution);
            check_more_packets(bytes, 0, PACKETS_TRIED, (uint8_t)links + 1, 3);
        }
    report_logs("logs of up to 3 packets, wrong ones among them, for jobs of 0 to 3 links at the ends of the range: all");
}

static void check_small_job_logs(const struct job *small)
{
    uint8_t bytes[2 * PACKETS_TRIED];

    for (size_t e = 0; e < small->edges; e++)
        if (small->edge[e].end1 >= small->edge[e].end2)
            return;
    if (!is_spanning(small))
        return;
    job = *small;
    lend_solved();
    check_more_packets(bytes, 0, PACKETS_TRIED, (uint8_t)job.edges, 2);
}

static void check_small_logs(void)
{
    each_small_job(check_small_job_logs);
    report_logs("logs of up to 3 packets for jobs of at most 3 stations, 3 links, costs 0 to 1, lower end first: all");
}

static void check_put_log(const struct log *log)
{
    static uint8_t bytes[LOG_ROOM];

    check_log_bytes(bytes, put_log(bytes, log));
}

/* The way in which an edge makes the tree dearer than others. */
static uint32_t way_off(size_t e)
{
    return job.edge[e].mark == TREE;
}

/* All costs are equal but one, which is a step off. Each edge in turn goes a step off too before that one comes back, and then
 * back: if nothing but the edge keeps the tree from being cheapest, it does so up to the last packet. */
static void check_each_off(uint32_t off)
{
    static struct log log;

    for (size_t e = 0; e < job.edges; e++)
        job.edge[e].cost = 1000;
    job.edge[off].cost = way_off(off) == 1 ? 1001 : 999;
    lend_solved();
    log.packets = 3;
    for (uint32_t e = 0; e < job.edges; e++) {
        log.packet[0] = (struct packet){e, way_off(e)};
        log.packet[1] = (struct packet){off, 1 - way_off(off)};
        log.packet[2] = (struct packet){e, 1 - way_off(e)};
        check_put_log(&log);
    }
}

static void check_level_logs(void)
{
    fill_longest_answer(0);
    check_each_off(EDGES_MOST - 1);
    check_each_off(0);
    for (size_t tried = 0; tried < 4; tried++) {
        random_job(&job, NODES_MOST, EDGES_MOST, true);
        check_each_off(pick(EDGES_MOST));
    }
    report_logs("logs in which one link of a job of 256 decides: all links");
}

/* Every spare lies over every tree edge and is a step cheaper: as many pairs of them as there can be. */
static void check_most_pairs(void)
{
    static struct log log;

    fill_longest_answer(999);
    log.packets = 0;
    for (uint32_t e = 0; e < job.edges; e++) {
        if (job.edge[e].mark == SPARE) {
            job.edge[e] = (struct edge){0, NODES_MOST - 1, 999, SPARE};
        } else {
            job.edge[e].cost = 1000;
            log.packet[log.packets++] = (struct packet){e, 0};
        }
    }
    lend_solved();
    check_put_log(&log);
    log.packets--;
    check_put_log(&log);
    report_logs("logs for a job of most pairs");
}

/* As many packets as the tree of a large job can be judged after. */
static void check_large_logs(void)
{
    static struct log log;
    struct plan plan = {&job, &solution, 2000};

    for (size_t tried = 0; tried < 60; tried++) {
        random_job(&job, NODES_MOST, EDGES_MOST, tried % 2 == 0);
        lend_solved();
        random_log(&plan, &log);
        check_put_log(&log);
    }
    report_logs("logs of up to 2,000 packets for jobs of up to 64 stations and 256 links");
}

/* One way for one edge, the other for another, and now and then any packet. */
static void fill_long_log(struct log *log, size_t packets, uint32_t down, uint32_t up)
{
    for (log->packets = 0; log->packets < packets; log->packets++) {
        uint32_t way = pick(2), edge = way == 1 ? up : down;
        log->packet[log->packets] = (struct packet){pick(40) == 0 ? pick((uint32_t)job.edges) : edge, way};
    }
}

/* Two stations; the tree link falls and the spare rises until they meet, near the end of the log. */
static void check_million_judged(struct log *log)
{
    const uint32_t apart = 1000000;

    job.nodes = 2;
    job.edges = 5;
    fill_parallel(job.edge, job.edges);
    for (size_t e = 0; e < job.edges; e++)
        job.edge[e].cost = job.edge[e].mark == SPARE ? COST_MOST : apart;
    job.edge[2].cost = 0;
    lend_solved();
    fill_long_log(log, apart + 100000, 0, 2);
    check_put_log(log);
    log->packet[log->packets++] = (struct packet){5, 0};
    check_put_log(log);
}

/* 256 links, so that many packets have three bytes; the tree is cheapest at the start. */
static void check_million_heard(struct log *log)
{
    random_job(&job, NODES_MOST, EDGES_MOST, true);
    solve(&job, &solution);
    for (size_t e = 0; e < job.edges; e++)
        job.edge[e].cost = (uint32_t)solution.low[e];
    lend_solved();
    fill_long_log(log, 1000000, 255, 128);
    check_put_log(log);
}

static void check_longest_logs(void)
{
    static struct log log;

    check_million_judged(&log);
    check_million_heard(&log);
    report_logs("logs of a million packets and more");
}

/* One byte or one number all through, for a job of 256 links. */
static void check_filled_logs(void)
{
    const size_t lengths[] = {1538, 65536, 1000000};
    const char *const fillers[] = {"00", "01", "02", "80", "FF", "FF 01", "FF 01 01", "FF FF 7F", "80 80 80 01"};

    for (size_t i = 0; i < COUNT_OF(lengths); i++)
        for (size_t j = 0; j < COUNT_OF(fillers); j++) {
            fill_frame(fillers[j], lengths[i]);
            check_log_bytes(frame, lengths[i]);
            check_log_bytes(frame, lengths[i] - 1);
        }
    report_logs("logs of 1,537 to 1,000,000 bytes");
}

static void check_logs(void)
{
    check_log_rows();
    check_short_logs();
    check_few_packets();
    check_small_logs();
    check_level_logs();
    check_most_pairs();
    check_large_logs();
    check_longest_logs();
    check_filled_logs();
}

/* Random frames. */

static void check_random_job(uint32_t nodes_most, size_t edges_most, bool full)
{
    random_job(&job, nodes_most, edges_most, full);
    check_job(&job);
}

static void check_tiny(void)
{
    check_random_job(4, 6, false);
}

static void check_small(void)
{
    check_random_job(7, 12, false);
}

static void check_medium(void)
{
    check_random_job(20, 60, false);
}

static void check_large(void)
{
    check_random_job(NODES_MOST, EDGES_MOST, false);
}

static void check_full(void)
{
    check_random_job(NODES_MOST, EDGES_MOST, true);
}

static void random_small_job(void)
{
    if (pick(2) == 0)
        random_job(&job, 4, 6, false);
    else
        random_job(&job, 7, 12, false);
}

static void check_wrong_links(void)
{
    random_small_job();
    for (uint32_t times = 1 + pick(2); times > 0; times--)
        damage_job(&job);
    check_job(&job);
}

/* The job's frame, damaged once or more. */
static void check_damage(void)
{
    static uint8_t damaged[JOB_ROOM];
    size_t length = put_job(frame, &job);

    for (uint32_t times = 1 + pick(2) * pick(3); times > 0; times--) {
        length = damage_frame(frame, length, damaged);
        memcpy(frame, damaged, length);
    }
    check_frame(frame, length);
}

static void check_damaged(void)
{
    random_small_job();
    check_damage();
}

static void check_damaged_large(void)
{
    random_job(&job, NODES_MOST, EDGES_MOST, pick(2) == 0);
    check_damage();
}

static void check_random_bytes(void)
{
    check_frame(frame, random_bytes(frame, 20));
}

static void check_random_list(void)
{
    random_small_job();
    check_odd_list(pick(4 * (uint32_t)job.edges + 1), odd_values[pick(COUNT_OF(odd_values))]);
}

static const struct share {
    uint32_t in_10000;
    void (*check)(void);
    const char *kind;
} shares[] = {
    {2800, check_tiny, "random jobs of up to 4 stations and 6 links"},
    {1700, check_small, "random jobs of up to 7 stations and 12 links"},
    {200, check_medium, "random jobs of up to 20 stations and 60 links"},
    {30, check_large, "random jobs of up to 64 stations and 256 links"},
    {20, check_full, "random jobs of 64 stations and 256 links"},
    {2200, check_wrong_links, "jobs with wrong links"},
    {2200, check_damaged, "damaged frames"},
    {50, check_damaged_large, "damaged frames of up to 256 links"},
    {500, check_random_bytes, "frames of random bytes"},
    {300, check_random_list, "lists with a large number"},
};

static void check_random(size_t count)
{
    for (size_t i = 0; i < COUNT_OF(shares); i++) {
        for (size_t done = 0; done < (count * shares[i].in_10000 + 9999) / 10000; done++)
            shares[i].check();
        report(shares[i].kind);
    }
}

static void print_list_counts(void)
{
    printf("%zu lists: %zu accepted", counts.lists, counts.lists_refused[0]);
    for (int number = 1; number <= 6; number++)
        printf(", %zu refused %d", counts.lists_refused[number], number);
    printf("; %zu list calls\n", counts.list_calls);
}

static void print_move_counts(void)
{
    printf("%zu sheets made, up to %zu bytes, %zu costs refused 8; ", counts.sheets_made, counts.sheet_longest,
           counts.costs_refused);
    printf("%zu sheets applied, %zu refused 8, %zu of them for a cost out of range; ", counts.sheets_applied,
           counts.sheets_refused, counts.sheets_leaving);
    printf("%zu costs and sheets refused with their job\n", counts.moves_refused);
}

static void print_log_counts(void)
{
    printf("%zu logs replayed: %zu cheapest from the start, %zu later, %zu never; ",
           counts.logs_at_start + counts.logs_later + counts.logs_never, counts.logs_at_start, counts.logs_later,
           counts.logs_never);
    printf("%zu first cheapest after no more packets than the answer has steps; %zu judged by all spanning trees\n",
           counts.logs_shortest, counts.logs_by_trees);
    printf("%zu packets heard, up to %zu in a log, %zu left a cost at an end of its range; ", counts.packets,
           counts.log_longest, counts.packets_left);
    printf("%zu logs refused 9, %zu with their job\n", counts.logs_refused, counts.logs_refused_with_job);
}

static void print_counts(void)
{
    printf("%zu frames: %zu accepted", counts.frames, counts.refused[0]);
    for (int number = 1; number <= 6; number++)
        printf(", %zu refused %d", counts.refused[number], number);
    printf("\naccepted: %zu with steps, up to %zu; %zu with the tree cheapest; ", counts.with_steps, counts.steps_most,
           counts.cheapest);
    printf("%zu with unplugged links; longest answer %zu bytes; %zu searched whole\n", counts.with_unplugged,
           counts.answer_longest, counts.searched);
    printf("%zu areas, %zu parts found, %zu answers judged yes, %zu judged no or refused\n", areas_tried, counts.finds,
           counts.offers_yes, counts.offers_no);
    printf("%zu frames read into arrays\n", counts.reads);
    print_list_counts();
    print_move_counts();
    print_log_counts();
}

int main(int argc, char **argv)
{
    size_t count = argc > 1 ? strtoul(argv[1], NULL, 10) : 1000000;

    seed(argc > 2 ? strtoull(argv[2], NULL, 10) : 1);
    make_fences();
    check_rows();
    check_link_counts();
    check_short_frames();
    check_long_numbers();
    check_small_jobs();
    check_longest_jobs();
    check_longest_answer();
    check_long_frames();
    check_lists();
    check_sheets();
    check_logs();
    check_random(count);
    print_counts();
    printf("OK\n");
    return 0;
}
