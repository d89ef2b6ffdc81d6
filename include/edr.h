/* The check and the writer of quarterly stack reports, the year to date, hours from a recorder, and sheets kept from before, for C99
   and C++11. Link with libedr_c.a, which examples/library writes to target/staticlib. Behind each pointer are as many elements as
   the length after it says, and what a call writes to overlaps nothing else that it is lent; else every call takes anything. Header
   and library belong together: the lengths below have grown, and what a word counts has changed, and both may again. */
#ifndef EDR_H
#define EDR_H

#include <stddef.h>
#include <stdint.h>

#ifdef __cplusplus
extern "C" {
#endif

enum {
    EDR_MOST_HOURS = 2208,         /* operating hours of the longest quarter */
    EDR_HOUR_WORDS = 6,            /* words of a sheet for an operating hour */
    EDR_NAME_LENGTH = 6,           /* bytes of a stack name */
    EDR_ANSWER_LENGTH = 6,         /* numbers of an answer */
    EDR_YEAR_LENGTH = 7,           /* numbers of a record of the year to date */
    EDR_RECORDER_READINGS = 4,     /* readings of an hour from a recorder, in this order: SO2, NOx, CO2, flow */
    EDR_RECORDER_ANSWER_LENGTH = 5 /* numbers of the answer to such an hour */
};

/* The bytes of a report of so many operating hours and no idle ones. No accepted report has more than that of EDR_MOST_HOURS. */
#define EDR_REPORT_LENGTH(hours) (75 + 318 * (size_t)(hours))

/* What edr_check returns. */
enum edr_outcome {
    EDR_REFUSED = 0,         /* answer[0], answer[1]: the refusal's number and line */
    EDR_ACCEPTED = 1,        /* answer[0] to answer[5]: operating hours, SO2 tons, CO2 tons and heat in tenths, mean NOx rate in
                                thousandths, NOx tons in tenths */
    EDR_ANSWER_TOO_SHORT = 2 /* nothing is written: the room is less than EDR_ANSWER_LENGTH */
};

/* What edr_year_to_date returns. */
enum edr_year_outcome {
    EDR_YEAR_REFUSED = 0,  /* record[0]: the refusal's number */
    EDR_YEAR_JOINED = 1,   /* record[0] to record[6]: year, quarter, operating hours, SO2 tons, CO2 tons, heat and NOx tons in
                              tenths */
    EDR_YEAR_TOO_SHORT = 2 /* nothing is written: less than EDR_YEAR_LENGTH in a record, or EDR_ANSWER_LENGTH in the answer */
};

/* What edr_recorder_words returns. */
enum edr_recorder_outcome {
    EDR_RECORDER_REFUSED = 0,   /* answer[0]: the refusal's number */
    EDR_RECORDER_WORDS = 1,     /* answer[0] to answer[3]: words of SO2, NOx, CO2, flow; answer[4]: how many are substituted */
    EDR_RECORDER_WRONG_FORM = 2 /* nothing is written: not EDR_RECORDER_READINGS states or readings, a state that is no
                                   edr_reading_state, or room for less than EDR_RECORDER_ANSWER_LENGTH */
};

/* How a reading comes from a recorder. */
enum edr_reading_state {
    EDR_READING_MEASURED = 0,
    EDR_READING_SUBSTITUTED = 1,
    EDR_READING_ABSENT = 2 /* its double is not looked at */
};

/* The numbers of the refusals. README.md says what to do about each. */
enum edr_refusal {
    /* the whole file, line 0 */
    EDR_REFUSAL_FILE_END = 1, /* empty, or not ended by a newline */

    /* a line of the file */
    EDR_REFUSAL_RECORD_TYPE = 2,    /* not of the type that is due there, or behind the last line */
    EDR_REFUSAL_LINE_LENGTH = 3,    /* another length than its type */
    EDR_REFUSAL_UNPRINTABLE = 4,    /* a byte that is not printable ASCII */
    EDR_REFUSAL_STACK_NAME = 5,     /* blank, or unlike that of line 100 */
    EDR_REFUSAL_DATE = 6,           /* year, quarter, date or hour: not digits, no real date, not in the quarter, not later */
    EDR_REFUSAL_DATE_DIFFERS = 7,   /* date and hour unlike those of the 200 line of the same rank, or no such 200 line */
    EDR_REFUSAL_FORMAT = 8,         /* a value that is not in its format */
    EDR_REFUSAL_RANGE = 9,          /* a value outside its range */
    EDR_REFUSAL_LINES_MISSING = 10, /* missing at the end, this line first */

    /* an hour's figure that no unrounded readings give */
    EDR_REFUSAL_HEAT_INPUT_RATE = 11,
    EDR_REFUSAL_SO2_RATE = 12, /* in a gas hour: that no unrounded heat input gives */
    EDR_REFUSAL_NOX_RATE = 13,
    EDR_REFUSAL_CO2_RATE = 14,

    /* a total of line 301 that differs from the one formed */
    EDR_REFUSAL_SO2_TOTAL = 21,
    EDR_REFUSAL_CO2_TOTAL = 22,
    EDR_REFUSAL_HEAT_INPUT_TOTAL = 23,
    EDR_REFUSAL_MEAN_NOX_RATE = 24,

    /* the writer, without a line */
    EDR_REFUSAL_SHEET = 31,            /* year, quarter, name, word count, a kind, or hours that do not rise or do not exist */
    EDR_REFUSAL_SHEET_RANGE = 32,      /* a value outside its range: a flow over 9,999,999 thousands, for one */
    EDR_REFUSAL_FIGURE_TOO_LARGE = 33, /* a figure too large for its columns */
    EDR_REFUSAL_BUFFER_TOO_SHORT = 34, /* room for less than EDR_REPORT_LENGTH(n) bytes */

    /* the year to date, without a line */
    EDR_REFUSAL_YEAR_RECORD = 41, /* quarter not 1 to 4 or not next in its year, a quarter 0 not all zeros, or too many hours */
    EDR_REFUSAL_YEAR_SUM = 42,    /* a sum over 9,999,999,999 tenths */

    /* a line of the file, tried after EDR_REFUSAL_RANGE */
    EDR_REFUSAL_FLOW_NO_WHOLE_THOUSAND = 43, /* a flow that is not a whole thousand of scfh */

    /* an hour from a recorder, without a line: the three are tried on SO2, then on NOx, CO2 and flow */
    EDR_REFUSAL_READING_ABSENT = 44,
    EDR_REFUSAL_READING_NEGATIVE_OR_NOT_FINITE = 45, /* minus zero counts as 0 */
    EDR_REFUSAL_READING_RANGE = 46, /* recorded as SO2 or NOx over 9,999.9, CO2 0.0 or over 100.0, flow over
                                       9,999,999,000 */

    /* a 300 line of the file, tried in the place of heat input's EDR_REFUSAL_FORMAT */
    EDR_REFUSAL_IDLE_HEAT_NOT_BLANK = 47, /* time 0.00, and heat input that is not blank */

    /* a total of line 301 that differs from the one formed, tried after EDR_REFUSAL_MEAN_NOX_RATE */
    EDR_REFUSAL_NOX_TOTAL = 48, /* NOx tons: the hours' NOx rate * heat input * time, added up, over 2,000 */

    /* a 310 line of the file, tried after EDR_REFUSAL_DATE_DIFFERS and before its value's EDR_REFUSAL_FORMAT */
    EDR_REFUSAL_GAS = 49, /* GAS beside an SO2 reading on the 200 line of the same rank, or a blank reading there without GAS */

    /* a kept sheet, without a line, tried after EDR_REFUSAL_SHEET for its word count or a kind */
    EDR_REFUSAL_OLD_FLOW = 50 /* a flow word, which has scfh there, that is not a whole thousand */
};

/* The kinds of a sheet's words, in the order in which an hour's words stand, and what their values count. */
enum edr_kind {
    EDR_KIND_HOUR = 0, /* hour of the quarter, 0 first, and operating time: see edr_hour_word */
    EDR_KIND_SO2 = 1,  /* tenths of ppm */
    EDR_KIND_NOX = 2,  /* tenths of ppm */
    EDR_KIND_CO2 = 3,  /* tenths of percent */
    EDR_KIND_FLOW = 4, /* thousands of scfh; in a sheet kept from before, scfh: see edr_convert */
    EDR_KIND_FC = 5    /* tenths of scf/mmBtu */
};

/* A word has its value in the low bits and its kind above them. */
#define EDR_VALUE_BITS 29
#define EDR_MOST_VALUE ((UINT32_C(1) << EDR_VALUE_BITS) - 1)

/* A word of a sheet. A value too large for its bits becomes EDR_MOST_VALUE, which edr_write refuses in every kind. */
static inline uint32_t edr_word(enum edr_kind kind, uint32_t value)
{
    return (uint32_t)kind << EDR_VALUE_BITS | (value < EDR_MOST_VALUE ? value : EDR_MOST_VALUE);
}

/* The word of an hour of the quarter with its operating time in hundredths of an hour, 1 to 100: idle hours have no words. An hour or
   a time too large for its bits becomes the largest, which edr_write refuses. */
static inline uint32_t edr_hour_word(uint32_t hour, uint32_t time)
{
    const uint32_t most_hour = EDR_MOST_VALUE >> 7;
    const uint32_t most_time = 127;
    return edr_word(EDR_KIND_HOUR, (hour < most_hour ? hour : most_hour) * 128 + (time < most_time ? time : most_time));
}

/* The value of a word, without its kind. */
static inline uint32_t edr_value(uint32_t word)
{
    return word & EDR_MOST_VALUE;
}

/* Checks a report of `length` bytes and returns an edr_outcome. Elements of the answer that it does not fill keep their values. */
uint64_t edr_check(const uint8_t *file, size_t length, uint64_t *answer, size_t room);

/* Writes the report of a sheet to the front of the buffer. Returns its length, which is EDR_REPORT_LENGTH(0) or more, or the number of
   the refusal, 31 to 34. Bytes behind the report keep their values, and on a refusal all do. */
uint64_t edr_write(uint64_t year, uint64_t quarter, const uint8_t *name, size_t name_length,
                   const uint32_t *sheet, size_t words, uint8_t *buffer, size_t room);

/* Adds an accepted quarter, as edr_check answered it, to the previous record of its year, and returns an edr_year_outcome. The
   previous record is the one that the quarter before gave; for quarter 1, the year and six zeros. Elements of the new record that are
   not filled keep their values. */
uint64_t edr_year_to_date(const uint64_t *previous, size_t previous_length, const uint64_t *answer, size_t answer_length,
                          uint64_t year, uint64_t quarter, uint64_t *record, size_t room);

/* Makes the words of an hour from a recorder, as they stand in a sheet between the hour's and Fc's, and returns an
   edr_recorder_outcome. Each reading has an edr_reading_state and a double: SO2 and NOx in ppm and CO2 in percent, recorded in tenths;
   flow in scfh, recorded in thousands. The double's exact binary value is rounded half up: the double 0.15 lies below 0.15 and
   is recorded as 0.1. Elements of the answer that are not filled keep their values. */
uint64_t edr_recorder_words(const uint8_t *states, size_t states_length, const double *readings, size_t readings_length,
                            uint32_t *answer, size_t room);

/* Makes a sheet kept from before, whose flow words have scfh, into one for edr_write: flow words count thousands, all other words stay.
   Returns 0, or the number of the refusal, and then every word is as it was: EDR_REFUSAL_SHEET for a word count that is no whole hours
   or over EDR_MOST_HOURS or for a kind unlike its place, and then EDR_REFUSAL_OLD_FLOW. No year, range or order of hours is looked at.
   With flows of at most 500,000,000 scfh, edr_write returns for the converted sheet what it did for the kept one, byte for byte.
   Convert a sheet only once, and keep the original: converted words pass for kept ones, 20,000,000 becomes 20,000 and then 20. */
uint64_t edr_convert(uint32_t *sheet, size_t words);

#ifdef __cplusplus
}
#endif

#endif
