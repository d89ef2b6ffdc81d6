/* A year from C: writes and checks the report of each quarter and joins the answer to the year to date; then does the fourth again,
   which is refused. */
#include "quarter.h"

enum { YEAR = 2004, QUARTERS = 4 };

/* The hours of each quarter, which all operate, and their flows. */
static const struct { uint32_t hours, flow; } made_up[QUARTERS] = {
    {2184, 22000}, {2184, 16000}, {2208, 20000}, {2208, 18000}
};

/* Fills the record of a quarter, given that of the one before, and prints it. Returns whether all is accepted. */
static bool join_quarter(const uint64_t previous[EDR_YEAR_LENGTH], unsigned quarter, uint64_t record[EDR_YEAR_LENGTH])
{
    const uint32_t hours = made_up[quarter - 1].hours;
    uint64_t answer[EDR_ANSWER_LENGTH];
    if (!write_quarter(YEAR, quarter, hours, made_up[quarter - 1].flow) || !check_report(hours, answer)) {
        return false;
    }
    const uint64_t outcome =
        edr_year_to_date(previous, EDR_YEAR_LENGTH, answer, EDR_ANSWER_LENGTH, YEAR, quarter, record, EDR_YEAR_LENGTH);
    if (outcome != EDR_YEAR_JOINED) {
        printf("refused %" PRIu64 "\n", record[0]);
        return false;
    }
    printf("year to date %" PRIu64 " %" PRIu64 " %" PRIu64 " %" PRIu64 " %" PRIu64 " %" PRIu64 " %" PRIu64 "\n",
           record[0], record[1], record[2], record[3], record[4], record[5], record[6]);
    return true;
}

int main(void)
{
    uint64_t records[1 + QUARTERS][EDR_YEAR_LENGTH] = {{YEAR}}; /* quarter 0: the year and zeros */
    uint64_t again[EDR_YEAR_LENGTH];
    for (unsigned quarter = 1; quarter <= QUARTERS; quarter++) {
        if (!join_quarter(records[quarter - 1], quarter, records[quarter])) {
            return 1;
        }
    }
    join_quarter(records[QUARTERS], QUARTERS, again);
    return 0;
}
