/* An hour from a recorder, from C: makes its words, writes its report and checks it; then three hours that are refused. */
#include "report.h"

/* An hour as the recorder hands it over: SO2, NOx, CO2, flow. */
struct recorder_hour {
    uint8_t states[EDR_RECORDER_READINGS];
    double readings[EDR_RECORDER_READINGS];
};

enum { MEASURED = EDR_READING_MEASURED, SUBSTITUTED = EDR_READING_SUBSTITUTED, ABSENT = EDR_READING_ABSENT };

/* The double 250.35 lies below 250.35 and is recorded as 250.3. 12.25 and 20,000,500 lie halfway and are recorded as 12.3 and
   20,001,000. */
static const struct recorder_hour good = {
    {MEASURED, SUBSTITUTED, MEASURED, MEASURED}, {250.35, 200.0, 12.25, 20000500.0}
};

static const struct recorder_hour refused[] = {
    {{MEASURED, ABSENT, MEASURED, MEASURED}, {250.35, 0.0, 12.25, 20000500.0}},       /* 44 */
    {{MEASURED, ABSENT, MEASURED, MEASURED}, {-0.01, 0.0, 12.25, 20000500.0}},        /* 45: SO2 comes before NOx */
    {{MEASURED, SUBSTITUTED, MEASURED, MEASURED}, {250.35, 200.0, 0.04, 20000500.0}}, /* 46: CO2 is recorded as 0.0 */
};

/* Makes the words of an hour and prints their values and how many are substituted. Returns whether they are made. */
static bool record_hour(const struct recorder_hour *hour, uint32_t answer[EDR_RECORDER_ANSWER_LENGTH])
{
    const uint64_t outcome = edr_recorder_words(hour->states, EDR_RECORDER_READINGS, hour->readings, EDR_RECORDER_READINGS,
                                                answer, EDR_RECORDER_ANSWER_LENGTH);
    if (outcome != EDR_RECORDER_WORDS) {
        printf("refused %" PRIu32 "\n", answer[0]);
        return false;
    }
    printf("recorded %" PRIu32 " %" PRIu32 " %" PRIu32 " %" PRIu32 " %" PRIu32 "\n",
           edr_value(answer[0]), edr_value(answer[1]), edr_value(answer[2]), edr_value(answer[3]), answer[4]);
    return true;
}

/* Fills the sheet with one hour: these words between those of hour and Fc. */
static void fill_sheet(const uint32_t words[EDR_RECORDER_READINGS])
{
    sheet[0] = edr_hour_word(0, 50); /* operating time 0.50 */
    for (size_t place = 0; place < EDR_RECORDER_READINGS; place++) {
        sheet[1 + place] = words[place];
    }
    sheet[5] = edr_word(EDR_KIND_FC, 18000);
}

int main(void)
{
    uint32_t recorded[EDR_RECORDER_ANSWER_LENGTH];
    uint64_t answer[EDR_ANSWER_LENGTH];
    if (!record_hour(&good, recorded)) {
        return 1;
    }
    fill_sheet(recorded);
    if (!write_report(2005, 3, 1) || !check_report(1, answer)) {
        return 1;
    }
    for (size_t place = 0; place < sizeof refused / sizeof refused[0]; place++) {
        record_hour(&refused[place], recorded);
    }
    return 0;
}
