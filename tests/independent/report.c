/* The report of document 02, T-01: adding what a log counts, and the report's text. */
#include <stdio.h>

#include "report.h"

void report_begin(uint32_t report[COUNTS], uint32_t from)
{
    for (size_t i = 0; i < COUNTS; i++)
        report[i] = from;
}

bool report_add(uint32_t report[COUNTS], const uint64_t log[COUNTS])
{
    for (size_t i = 0; i < COUNTS; i++)
        if (log[i] > COUNT_MOST - report[i])
            return false;
    for (size_t i = 0; i < COUNTS; i++)
        report[i] += (uint32_t)log[i];
    return true;
}

static void write_count(const char *name, uint32_t count)
{
    printf("%s %lu\n", name, (unsigned long)count);
}

void report_write(const uint32_t report[COUNTS])
{
    fputs("status", stdout);
    for (unsigned status = 0; status < STATUSES; status++)
        printf(" %u", status);
    for (unsigned host = 1; host <= HOSTS; host++) {
        printf("\nhost %u", host);
        for (unsigned status = 0; status < STATUSES; status++)
            printf(" %lu", (unsigned long)report[report_cell(host, status)]);
    }
    fputs("\n", stdout);
    write_count("function 0", report[FUNCTION_0]);
    write_count("ticks", report[TICKS]);
    write_count("power", report[POWER_CYCLES]);
    write_count("readings", report[READINGS]);
    write_count("bad", report[BAD_RECORDS]);
    write_count("short", report[SHORT_TAILS]);
}
