/* A quarter for the examples: its report, written from made-up readings. */
#ifndef QUARTER_H
#define QUARTER_H

#include "report.h"

/* Made-up readings of the hours, with flows from this one on, in thousands of scfh. */
static void fill_sheet(uint32_t hours, uint32_t flow)
{
    for (uint32_t hour = 0; hour < hours; hour++) {
        uint32_t *words = sheet + EDR_HOUR_WORDS * hour;
        words[0] = edr_hour_word(hour, 100); /* operating time 1.00 */
        words[1] = edr_word(EDR_KIND_SO2, 2000 + hour % 1000);
        words[2] = edr_word(EDR_KIND_NOX, 1500 + hour % 700);
        words[3] = edr_word(EDR_KIND_CO2, 100 + hour % 40);
        words[4] = edr_word(EDR_KIND_FLOW, flow + hour);
        words[5] = edr_word(EDR_KIND_FC, 18000);
    }
}

/* Writes the report of so many hours. Returns whether it is written. */
static bool write_quarter(uint64_t year, uint64_t quarter, uint32_t hours, uint32_t flow)
{
    fill_sheet(hours, flow);
    return write_report(year, quarter, hours);
}

#endif
