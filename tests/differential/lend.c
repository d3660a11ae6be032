/* See lend.h. */
#define _DEFAULT_SOURCE
#include <inttypes.h>
#include <signal.h>
#include <stdarg.h>
#include <stdio.h>
#include <stdlib.h>
#include <string.h>
#include <sys/mman.h>
#include <unistd.h>

#include "generate.h"
#include "lend.h"

/* Bytes in front of an area that must keep their paint; up to which length all area lengths are tried; how many bytes of a
 * frame are printed. */
enum { FRONT = 16, SHORT_LENGTH = 40, PRINTED = 8192 };

struct lent lent;
size_t areas_tried;

static uint8_t *job_end, *answer_end, *links_end, *area_end;
/* The two differ in every byte. */
static uint8_t paint[2][FRONT + AREA_ROOM];

static void on_fault(int number)
{
    differ("signal %d: memory was touched that was not lent", number);
}

static uint8_t *fence_behind(size_t room)
{
    size_t page = (size_t)sysconf(_SC_PAGESIZE), size = (room + page - 1) / page * page;
    uint8_t *start = mmap(NULL, size + page, PROT_READ | PROT_WRITE, MAP_PRIVATE | MAP_ANONYMOUS, -1, 0);

    if (start == MAP_FAILED || mprotect(start + size, page, PROT_NONE) != 0) {
        perror("no memory");
        exit(2);
    }
    return start + size;
}

void make_fences(void)
{
    job_end = fence_behind(JOB_ROOM);
    answer_end = fence_behind(JOB_ROOM);
    links_end = fence_behind(LINKS_ROOM * sizeof(ist_link));
    area_end = fence_behind(FRONT + AREA_ROOM);
    for (size_t i = 0; i < sizeof paint[0]; i++) {
        paint[0][i] = (uint8_t)(37 * i + 11);
        paint[1][i] = (uint8_t)~paint[0][i];
    }
    signal(SIGSEGV, on_fault);
    signal(SIGBUS, on_fault);
    lend_job(NULL, 0);
    lend_answer(NULL, 0);
}

static const uint8_t *put_before(uint8_t *end, const uint8_t *bytes, size_t length)
{
    if (length > 0)
        memcpy(end - length, bytes, length);
    return end - length;
}

void lend_job(const uint8_t *frame, size_t length)
{
    lent.job = put_before(job_end, frame, length);
    lent.job_length = length;
}

void lend_answer(const uint8_t *frame, size_t length)
{
    lent.answer = put_before(answer_end, frame, length);
    lent.answer_length = length;
}

ist_link *lend_links(uint32_t stations, size_t count)
{
    ist_link *links = (ist_link *)(void *)links_end - count;

    lent.stations = stations;
    lent.links = links;
    lent.links_count = count;
    return links;
}

static void print_hex(const char *name, const uint8_t *bytes, size_t length)
{
    printf("%s, %zu bytes:", name, length);
    for (size_t i = 0; i < length && i < PRINTED; i++)
        printf(" %02x", bytes[i]);
    printf(length > PRINTED ? " ..\n" : "\n");
}

void differ(const char *format, ...)
{
    va_list arguments;

    va_start(arguments, format);
    printf("different: ");
    vprintf(format, arguments);
    printf("\n");
    va_end(arguments);
    print_hex("frame", lent.job, lent.job_length);
    print_hex("answer, costs, sheet or log lent last", lent.answer, lent.answer_length);
    fflush(stdout);
    _Exit(1);
}

void expect(const char *what, int64_t got, int64_t wanted)
{
    if (got != wanted)
        differ("%s: %" PRId64 ", wanted %" PRId64, what, got, wanted);
}

/* One call: a refusal names length 0 and changes no byte, success changes none past the length. */
static const uint8_t *run(const struct writer *writer, size_t area_length, size_t painted, int32_t *refusal, size_t *length)
{
    uint8_t *area = area_end - area_length;

    memcpy(area - FRONT, paint[painted], FRONT + area_length);
    *length = SIZE_MAX;
    *refusal = writer->call(area, area_length, length);
    areas_tried++;
    if (*refusal != 0 && *length != 0)
        differ("%s refuses by %" PRId32 " and names length %zu", writer->name, *refusal, *length);
    if (*length > area_length)
        differ("%s names length %zu in an area of %zu", writer->name, *length, area_length);
    if (memcmp(area - FRONT, paint[painted], FRONT) != 0)
        differ("%s changes bytes in front of an area of %zu", writer->name, area_length);
    if (memcmp(area + *length, paint[painted] + FRONT + *length, area_length - *length) != 0)
        differ("%s changes bytes past length %zu of an area of %zu", writer->name, *length, area_length);
    return area;
}

int32_t write_once(const struct writer *writer, uint8_t *bytes, size_t *length)
{
    int32_t refusal;
    const uint8_t *area = run(writer, AREA_ROOM, 0, &refusal, length);

    memcpy(bytes, area, *length);
    return refusal;
}

static void check_area(const struct writer *writer, size_t area_length, size_t painted, int32_t refusal,
                       const uint8_t *bytes, size_t length)
{
    int32_t got, wanted = refusal != 0 ? refusal : area_length < length ? 7 : 0;
    size_t got_length;
    const uint8_t *area = run(writer, area_length, painted, &got, &got_length);

    if (got != wanted)
        differ("%s: %" PRId32 " with an area of %zu, wanted %" PRId32, writer->name, got, area_length, wanted);
    if (got == 0 && (got_length != length || memcmp(area, bytes, length) != 0))
        differ("%s: other bytes with an area of %zu", writer->name, area_length);
}

static void check_painted_twice(const struct writer *writer, size_t area_length, int32_t refusal, const uint8_t *bytes,
                                size_t length)
{
    check_area(writer, area_length, 0, refusal, bytes, length);
    check_area(writer, area_length, 1, refusal, bytes, length);
}

void check_areas(const struct writer *writer, int32_t refusal, const uint8_t *bytes, size_t length)
{
    size_t tried = length <= SHORT_LENGTH ? length : 2;

    if (refusal != 0) {
        check_area(writer, 0, 0, refusal, bytes, length);
        check_painted_twice(writer, 1 + pick(SHORT_LENGTH), refusal, bytes, length);
        return;
    }
    for (size_t area_length = 0; area_length < tried; area_length++)
        check_area(writer, area_length, area_length % 2, 0, bytes, length);
    if (length > 0) {
        check_area(writer, pick((uint32_t)length), pick(2), 0, bytes, length);
        check_painted_twice(writer, length - 1, 0, bytes, length);
    }
    check_painted_twice(writer, length, 0, bytes, length);
    check_painted_twice(writer, length + 1, 0, bytes, length);
    check_area(writer, length + 1 + pick((uint32_t)(AREA_ROOM - length)), pick(2), 0, bytes, length);
}
