/* A full quarter from C: writes the report of 2,208 operating hours, checks it, damages one figure and checks it again. */
#include "quarter.h"

enum { HOURS = EDR_MOST_HOURS };

/* Changes the tens of the last hour's SO2 figure: column 28 of the last 310 line, which 55 and 25 bytes an hour follow. */
static void damage(void)
{
    report[EDR_REPORT_LENGTH(HOURS) - HOURS * (55 + 25) - 35 + 27] ^= 1;
}

int main(void)
{
    uint64_t answer[EDR_ANSWER_LENGTH];
    if (!write_quarter(2004, 3, HOURS, 20000)) {
        return 1;
    }
    check_report(HOURS, answer);
    damage();
    check_report(HOURS, answer);
    return 0;
}
