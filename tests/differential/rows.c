/* See rows.h. */
#include <stdlib.h>

#include "rows.h"

/* The job of T1, whose costs are 5, 4 and 2, and jobs of one link or none. */
#define JOB_T1 "03 03 00 01 05 01 01 02 04 01 00 02 02 00"
#define JOB_LOWEST "02 01 00 01 00 01"
#define JOB_16383 "02 01 00 01 FF 7F 01"
#define JOB_HIGHEST "02 01 00 01 FF FF 7F 01"
#define JOB_BARE "01 00"
/* A tree link and a cheaper one beside it, unplugged. */
#define JOB_UNPLUGGED "02 02 00 01 05 01 00 01 03 02"
/* A tree link and a spare beside it: as dear, or a step cheaper at either end of the range. */
#define JOB_EVEN "02 02 00 01 07 01 00 01 07 00"
#define JOB_LOW_STEP "02 02 00 01 01 01 00 01 00 00"
#define JOB_HIGH_STEP "02 02 00 01 FF FF 7F 01 00 01 FE FF 7F 00"

const struct row rows[ROWS] = {
    {"T1", JOB_T1, 0, "03 04 04 04 01 00 02"},
    {"T2", JOB_BARE, 0, "00 00"},
    {"T3", JOB_EVEN, 0, "00 07 07 00"},
    {"T4", "02 02 00 01 07 01 00 01 06 00", 0, "01 06 06 01 00 01"},
    {"T5", JOB_16383, 0, "00 FF 7F 00"},
    {"T6", "80 00", 1, ""},
    {"T7", "", 2, ""},
    {"T8", "02 01 00 00 05 03", 4, ""},
    {"T9", "40 00", 6, ""},
    {"65 stations", "41 00", 2, ""},
    {"no station", "00 00", 2, ""},
    {"80 alone", "80", 1, ""},
    {"three bytes", "FF FF 01", 2, ""},
    {"four bytes", "FF FF FF 01", 1, ""},
    {"00 as the third byte", "80 80 00", 1, ""},
    {"stations of three bytes", "82 80 04 00", 2, ""},
    {"links of three bytes", "02 80 80 04", 2, ""},
    {"first end of three bytes", "02 01 80 80 04 01 05 01", 4, ""},
    {"second end of three bytes", "02 01 00 81 80 01 05 01", 4, ""},
    {"mark of three bytes", "02 01 00 01 05 81 80 04", 5, ""},
    {"end of four bytes", "02 01 80 80 80 01 01 05 01", 1, ""},
    {"mark of four bytes", "02 01 00 01 05 81 80 80 01", 1, ""},
    {"cost 16,384", "02 01 00 01 80 80 01 01", 0, "00 80 80 01 00"},
    {"cost 2,097,151", JOB_HIGHEST, 0, "00 FF FF 7F 00"},
    {"cost 2,097,152", "02 01 00 01 80 80 80 01 01", 1, ""},
    {"2,097,152 steps", "03 04 00 01 FF FF 7F 01 00 01 00 00 01 02 01 01 01 02 00 00", 0,
     "80 80 80 01 00 00 00 00 02 00 01 02 03"},
    {"links missing", "01 01", 3, ""},
    {"257 links", "02 81 02", 2, ""},
    {"unplugged", JOB_UNPLUGGED, 0, "00 05 03 00"},
    {"T1 and unplugged", "03 04 00 01 05 01 01 02 04 01 00 02 01 02 00 02 02 00", 0, "03 04 04 01 04 01 00 03"},
    {"unplugged, highest cost", "02 02 00 01 FF FF 7F 02 00 01 FF FF 7F 01", 0, "00 FF FF 7F FF FF 7F 00"},
    {"unplugged, equal ends", "02 02 00 01 05 01 00 00 03 02", 4, ""},
    {"unplugged, second end 2 of 2", "02 02 00 01 05 01 00 02 03 02", 4, ""},
    {"mark 3", "02 02 00 01 05 01 00 01 03 03", 5, ""},
    {"mark 65,538", "02 02 00 01 05 01 00 01 03 82 80 04", 5, ""},
    {"the tree unplugged", "02 01 00 01 05 02", 6, ""},
    {"joined by an unplugged link", "03 02 00 01 05 01 01 02 05 02", 6, ""},
};

const struct sheet_row sheet_rows[SHEET_ROWS] = {
    {"T1's answer", JOB_T1, "02 00 01 02 04", "04 04 04"},
    {"nothing moved", JOB_T1, "00", "05 04 02"},
    {"no link", JOB_BARE, "00", ""},
    {"down by 16,383", JOB_16383, "01 00 FD FF 01", "00"},
    {"up by 2,097,151", JOB_LOWEST, "01 00 FE FF FF 01", "FF FF 7F"},
    {"down by 2,097,151", JOB_HIGHEST, "01 00 FD FF FF 01", "00"},
    {"up by 2,097,152", JOB_LOWEST, "01 00 80 80 80 02", NULL},
    {"up past 2,097,151", JOB_HIGHEST, "01 00 02", NULL},
    {"down past 0", JOB_T1, "01 02 05", NULL},
    {"code 268,435,455", JOB_T1, "01 00 FF FF FF 7F", NULL},
    {"a code of five bytes", JOB_T1, "01 00 80 80 80 80 01", NULL},
    {"code 0", JOB_T1, "01 00 00", NULL},
    {"code 1 in two bytes", JOB_T1, "01 00 81 00", NULL},
    {"links that fall", JOB_T1, "02 02 04 00 01", NULL},
    {"a link twice", JOB_T1, "02 00 01 00 01", NULL},
    {"link 3 of 3", JOB_T1, "01 03 02", NULL},
    {"a move missing", JOB_T1, "02 00 01", NULL},
    {"a move too many", JOB_T1, "01 00 01 02 04", NULL},
    {"no bytes", JOB_T1, "", NULL},
    {"no move in two bytes", JOB_T1, "80 00", NULL},
    {"costs missing", JOB_T1, NULL, ""},
    {"a cost missing", JOB_T1, NULL, "04 04"},
    {"a cost too many", JOB_T1, NULL, "04 04 04 04"},
    {"a cost cut", JOB_T1, NULL, "04 04 84"},
    {"cost 4 in two bytes", JOB_T1, NULL, "84 00 04 04"},
    {"a cost of four bytes", JOB_T1, NULL, "04 04 80 80 80 01"},
    {"a cost of no link", JOB_BARE, NULL, "00"},
    {"an unplugged link moved", JOB_UNPLUGGED, "01 01 02", "05 04"},
    {"an unplugged link down past 0", JOB_UNPLUGGED, "01 01 07", NULL},
};

const struct log_row log_rows[LOG_ROWS] = {
    {"no packet", JOB_T1, "", "05 04 02", -1},
    {"T1's answer", JOB_T1, "00 00 02 01 02 01", "04 04 04", 3},
    {"T1's answer in another order", JOB_T1, "02 01 02 01 00 00", "04 04 04", 3},
    {"other best costs", JOB_T1, "02 01 02 01 02 01", "05 04 05", 3},
    {"a step short", JOB_T1, "00 00 02 01", "04 04 03", -1},
    {"a step more", JOB_T1, "00 00 02 01 02 01 02 01", "04 04 05", 3},
    {"cheapest and no longer", JOB_T1, "00 00 02 01 02 01 00 01", "05 04 04", 3},
    {"cheapest twice", JOB_T1, "02 01 02 01 02 01 00 01 00 00", "05 04 05", 3},
    {"forth and back first", JOB_T1, "01 01 01 00 00 00 02 01 02 01", "04 04 04", 5},
    {"no packet, cheapest", JOB_EVEN, "", "07 07", 0},
    {"cheapest at the start only", JOB_EVEN, "00 01", "08 07", 0},
    {"no link", JOB_BARE, "", "", 0},
    {"down at 0", JOB_LOWEST, "00 00", "00", 0},
    {"down at 0 and up", JOB_LOWEST, "00 00 00 00 00 01", "01", 0},
    {"up at 2,097,151", JOB_HIGHEST, "00 01", "FF FF 7F", 0},
    {"up at 2,097,151 and down", JOB_HIGHEST, "00 01 00 01 00 00", "FE FF 7F", 0},
    {"a packet that leaves a 0 counts", JOB_LOW_STEP, "01 00 00 00", "00 00", 2},
    {"a packet that leaves 2,097,151 counts", JOB_HIGH_STEP, "00 01 01 01", "FF FF 7F FF FF 7F", 2},
    {"16,383 and one", JOB_16383, "00 01", "80 80 01", 0},
    {"an unplugged link moved", JOB_UNPLUGGED, "01 00 01 00 01 00 01 00", "05 00", 0},
    {"cut in a link", JOB_T1, "80", NULL, 0},
    {"cut behind a link", JOB_T1, "00", NULL, 0},
    {"cut in a direction", JOB_T1, "00 81", NULL, 0},
    {"three numbers", JOB_T1, "00 00 01", NULL, 0},
    {"direction 2", JOB_T1, "00 02", NULL, 0},
    {"direction 16,384", JOB_T1, "00 80 80 01", NULL, 0},
    {"direction 65,537", JOB_T1, "00 81 80 04", NULL, 0},
    {"link 3 of 3", JOB_T1, "03 01", NULL, 0},
    {"link 65,536", JOB_T1, "80 80 04 01", NULL, 0},
    {"link 0 in two bytes", JOB_T1, "80 00 01", NULL, 0},
    {"link 0 in three bytes", JOB_T1, "80 80 00 01", NULL, 0},
    {"direction 0 in two bytes", JOB_T1, "00 80 00", NULL, 0},
    {"direction 1 in two bytes", JOB_T1, "00 81 00", NULL, 0},
    {"direction 1 in three bytes", JOB_T1, "00 81 80 00", NULL, 0},
    {"a link of four bytes", JOB_T1, "80 80 80 01 01", NULL, 0},
    {"a direction of four bytes", JOB_T1, "00 81 80 80 01", NULL, 0},
    {"80 80 80 01 alone", JOB_T1, "80 80 80 01", NULL, 0},
    {"cheapest, then cut", JOB_T1, "00 00 02 01 02 01 00", NULL, 0},
    {"cheapest, then link 3 of 3", JOB_T1, "00 00 02 01 02 01 03 00", NULL, 0},
    {"cheapest from the start, then direction 2", JOB_EVEN, "00 02", NULL, 0},
    {"a packet of no link", JOB_BARE, "00 01", NULL, 0},
    {"a byte of no link", JOB_BARE, "00", NULL, 0},
    {"a byte that begins a number, of no link", JOB_BARE, "80", NULL, 0},
};

const char thirteen[] = "03 04 00 01 09 01 01 02 08 01 00 02 01 00 00 02 03 00";

size_t from_hex(const char *text, uint8_t *to)
{
    size_t length = 0;
    char *end;

    for (unsigned long byte = strtoul(text, &end, 16); end != text; byte = strtoul(text, &end, 16)) {
        to[length++] = (uint8_t)byte;
        text = end;
    }
    return length;
}
