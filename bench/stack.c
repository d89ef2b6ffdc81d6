/* How many bytes of stack edr_write, edr_check and edr_year_to_date use on a full quarter, edr_convert on its sheet, and
   edr_recorder_words on an hour; and edr_check on a quarter that it refuses for a 220 line, which is then looked at test by test. Each is
   called on a stack that is filled with one byte, and the lowest byte that has changed tells. Arguments, return addresses and what a
   function keeps below its stack pointer count. */
#include <inttypes.h>
#include <stdio.h>
#include <string.h>
#include <ucontext.h>

#include "edr.h"

enum { HOURS = EDR_MOST_HOURS, WORDS = EDR_HOUR_WORDS * HOURS, LENGTH = EDR_REPORT_LENGTH(HOURS), FILL = 0xA5 };

static uint32_t sheet[WORDS];
static uint8_t report[LENGTH];
static uint64_t answer[EDR_ANSWER_LENGTH];
static const uint64_t previous[EDR_YEAR_LENGTH] = {2005, 2, 4344, 9000, 3000000, 29000000, 5200};
static uint64_t record[EDR_YEAR_LENGTH];
static const uint8_t states[EDR_RECORDER_READINGS] = {EDR_READING_MEASURED, EDR_READING_SUBSTITUTED, EDR_READING_MEASURED, EDR_READING_MEASURED};
static const double readings[EDR_RECORDER_READINGS] = {250.35, 200.0, 12.25, 20000500.0};
static uint32_t words[EDR_RECORDER_ANSWER_LENGTH];
static uint64_t returned;

static uint8_t stack[1 << 16];
static uint8_t *top;
static ucontext_t outside, inside;

static void call_write(void)
{
    top = __builtin_frame_address(0);
    returned = edr_write(2005, 3, (const uint8_t *)"STACK1", EDR_NAME_LENGTH, sheet, WORDS, report, LENGTH);
}

static void call_check(void)
{
    top = __builtin_frame_address(0);
    returned = edr_check(report, LENGTH, answer, EDR_ANSWER_LENGTH);
}

static void call_year_to_date(void)
{
    top = __builtin_frame_address(0);
    returned = edr_year_to_date(previous, EDR_YEAR_LENGTH, answer, EDR_ANSWER_LENGTH, 2005, 3, record, EDR_YEAR_LENGTH);
}

static void call_recorder_words(void)
{
    top = __builtin_frame_address(0);
    returned = edr_recorder_words(states, EDR_RECORDER_READINGS, readings, EDR_RECORDER_READINGS, words, EDR_RECORDER_ANSWER_LENGTH);
}

static void call_convert(void)
{
    top = __builtin_frame_address(0);
    returned = edr_convert(sheet, WORDS);
}

static void measure(const char *name, void (*call)(void))
{
    memset(stack, FILL, sizeof stack);
    getcontext(&inside);
    inside.uc_stack.ss_sp = stack;
    inside.uc_stack.ss_size = sizeof stack;
    inside.uc_link = &outside;
    makecontext(&inside, call, 0);
    swapcontext(&outside, &inside);
    const uint8_t *lowest = stack;
    while (*lowest == FILL) {
        lowest++;
    }
    printf("%s returned %" PRIu64 " and used at most %td bytes of stack\n", name, returned, top - lowest);
}

int main(void)
{
    for (uint32_t hour = 0; hour < HOURS; hour++) {
        uint32_t *hour_words = sheet + EDR_HOUR_WORDS * hour;
        hour_words[0] = edr_hour_word(hour, 50);
        hour_words[1] = edr_word(EDR_KIND_SO2, 2500);
        hour_words[2] = edr_word(EDR_KIND_NOX, 2000);
        hour_words[3] = edr_word(EDR_KIND_CO2, 120);
        hour_words[4] = edr_word(EDR_KIND_FLOW, 20000);
        hour_words[5] = edr_word(EDR_KIND_FC, 18000);
    }
    measure("edr_write", call_write);
    measure("edr_check", call_check);
    measure("edr_year_to_date", call_year_to_date);
    measure("edr_recorder_words", call_recorder_words);
    measure("edr_convert", call_convert);
    report[LENGTH / 2] = '\n';
    measure("edr_check, with a line too short,", call_check);
    return 0;
}
