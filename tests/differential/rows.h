/* The bench rows of document 01, and rows with numbers of three and four bytes and with unplugged links: a job frame with its
 * answer frame or its refusal. Rows of step sheets: a job frame with a sheet and the costs that it leads to. Rows of packet
 * logs: a job frame with a log, its final costs and the packets until the tree is first cheapest. */
#ifndef ROWS_H
#define ROWS_H

#include <stddef.h>
#include <stdint.h>

enum { ROW_ROOM = 64, ROWS = 37, SHEET_ROWS = 29, LOG_ROWS = 43 };

struct row {
    const char *name, *job;
    int refusal;
    const char *answer;
};

/* A sheet or costs beside NULL are refused by 8. */
struct sheet_row {
    const char *name, *job, *sheet, *costs;
};

/* `first` is -1 for never. A log beside NULL is refused by 9. */
struct log_row {
    const char *name, *job, *log, *costs;
    int first;
};

extern const struct row rows[ROWS];
extern const struct sheet_row sheet_rows[SHEET_ROWS];
extern const struct log_row log_rows[LOG_ROWS];
/* 13 steps, all costs 3, either pairing. */
extern const char thirteen[];

size_t from_hex(const char *text, uint8_t *to);

#endif
