/* Which host gets which answers: one report over any count of logs. */
#ifndef REPORT_H
#define REPORT_H

#include "bytes.h"

enum { HOSTS = 4, STATUSES = 12 };

/* What is counted: a cell for each host and status, then these. */
enum {
    FUNCTION_0 = HOSTS * STATUSES, /* calls that have no status */
    TICKS,
    POWER_CYCLES,
    READINGS,
    BAD_RECORDS,
    SHORT_TAILS,
    COUNTS
};

/* The most that a count holds. */
#define COUNT_MOST 4294967295u

/* The cell of a host, 1 to 4, and a status, 0 to 11. */
static inline size_t report_cell(unsigned host, unsigned status)
{
    return (host - 1) * STATUSES + status;
}

/* Every count begins at the same number. */
void report_begin(uint32_t report[COUNTS], uint32_t from);

/* Adds what one log counts, or is refused: false, and the report stays as it was, where some
 * count would pass COUNT_MOST. */
bool report_add(uint32_t report[COUNTS], const uint64_t log[COUNTS]);

/* Prints the report. */
void report_write(const uint32_t report[COUNTS]);

#endif
