/* Lends frames, lists and areas to the library. Each ends at a page that nobody may touch, so that reading or writing past
 * its end is a fault. An area is painted before each call, and what the library must leave is held to the paint. */
#ifndef LEND_H
#define LEND_H

#include "ist.h"

/* The longest list has a record more than the first that question 1 refuses by its length; a frame that holds it has little
 * more than 4 bytes for each. */
enum { LINKS_ROOM = (1 << 21) + 1, JOB_ROOM = 5 * LINKS_ROOM, AREA_ROOM = 2048 };

/* What is lent at present; a difference is reported with it. */
struct lent {
    const uint8_t *job;
    size_t job_length;
    /* An answer frame, costs, a step sheet or a packet log. */
    const uint8_t *answer;
    size_t answer_length;
    uint32_t stations;
    const ist_link *links;
    size_t links_count;
};

/* A call that writes into an area. */
struct writer {
    const char *name;
    int32_t (*call)(uint8_t *area, size_t area_length, size_t *written);
};

extern struct lent lent;
extern size_t areas_tried;

void make_fences(void);
void lend_job(const uint8_t *frame, size_t length);
void lend_answer(const uint8_t *frame, size_t length);
/* Room for so many links, to be filled in. */
ist_link *lend_links(uint32_t stations, size_t count);

/* Ends the run with the text, the job frame and what is lent beside it. */
_Noreturn void differ(const char *format, ...) __attribute__((format(printf, 1, 2)));
void expect(const char *what, int64_t got, int64_t wanted);

/* Calls the writer with an area of AREA_ROOM bytes and hands back what it wrote. */
int32_t write_once(const struct writer *writer, uint8_t *bytes, size_t *length);
/* Is the outcome the refusal, or these bytes in every area that is long enough, and 7 in every other? */
void check_areas(const struct writer *writer, int32_t refusal, const uint8_t *bytes, size_t length);

#endif
