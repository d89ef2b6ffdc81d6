/* A sheet kept from before, whose flow word has scfh, from C: converts it, writes its report and checks it; then two that are refused. */
#include "report.h"

enum { HOURS = 1 };

/* Fills the sheet with an hour as it was kept, with this flow in scfh. */
static void fill_sheet(uint32_t scfh)
{
    sheet[0] = edr_hour_word(0, 50); /* operating time 0.50 */
    sheet[1] = edr_word(EDR_KIND_SO2, 2500);
    sheet[2] = edr_word(EDR_KIND_NOX, 2000);
    sheet[3] = edr_word(EDR_KIND_CO2, 120);
    sheet[4] = edr_word(EDR_KIND_FLOW, scfh);
    sheet[5] = edr_word(EDR_KIND_FC, 18000);
}

/* Converts so many words of the sheet. Returns whether they are converted. */
static bool convert_sheet(size_t words)
{
    const uint64_t refusal = edr_convert(sheet, words);
    if (refusal != 0) {
        printf("refused %" PRIu64 "\n", refusal);
        return false;
    }
    printf("converted\n");
    return true;
}

int main(void)
{
    uint64_t answer[EDR_ANSWER_LENGTH];
    fill_sheet(20000000);
    if (!convert_sheet(EDR_HOUR_WORDS * HOURS) || !write_report(2005, 3, HOURS) || !check_report(HOURS, answer)) {
        return 1;
    }
    fill_sheet(20000500);
    convert_sheet(EDR_HOUR_WORDS * HOURS); /* 50: no whole thousand */
    convert_sheet(EDR_HOUR_WORDS * HOURS - 1); /* 31: Fc is lost, which is tried first */
    return 0;
}
