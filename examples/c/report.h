/* A sheet and its report for the examples, written and checked. Each call prints its answer on a line. */
#ifndef REPORT_H
#define REPORT_H

#include <inttypes.h>
#include <stdbool.h>
#include <stdio.h>

#include "edr.h"

static uint32_t sheet[EDR_HOUR_WORDS * EDR_MOST_HOURS];
static uint8_t report[EDR_REPORT_LENGTH(EDR_MOST_HOURS)];

/* Writes the report of so many hours of the sheet. Returns whether it is written. */
static bool write_report(uint64_t year, uint64_t quarter, uint32_t hours)
{
    const uint64_t written = edr_write(year, quarter, (const uint8_t *)"STACK1", EDR_NAME_LENGTH,
                                       sheet, EDR_HOUR_WORDS * hours, report, sizeof report);
    if (written < EDR_REPORT_LENGTH(0)) {
        printf("refused %" PRIu64 "\n", written);
        return false;
    }
    printf("written %" PRIu64 "\n", written);
    return true;
}

/* Checks the report of so many hours and fills the answer. Returns whether it is accepted. */
static bool check_report(uint32_t hours, uint64_t answer[EDR_ANSWER_LENGTH])
{
    if (edr_check(report, EDR_REPORT_LENGTH(hours), answer, EDR_ANSWER_LENGTH) != EDR_ACCEPTED) {
        printf("refused %" PRIu64 " %" PRIu64 "\n", answer[0], answer[1]);
        return false;
    }
    printf("accepted %" PRIu64 " %" PRIu64 " %" PRIu64 " %" PRIu64 " %" PRIu64 " %" PRIu64 "\n",
           answer[0], answer[1], answer[2], answer[3], answer[4], answer[5]);
    return true;
}

#endif
