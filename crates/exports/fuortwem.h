/* Reference water use of a station day, for C and C++: a day judged alone, a log read whole, and its report as text.
 *
 * docs/LINKING.md says how the library is built, installed as libfuortwem.a and linked, and has programs. docs/LOG.md has the records of a log and
 * its answers byte by byte, the lines of a report, and what each refusal means and what to do about it.
 *
 * fuortwem_judge, fuortwem_read_log and fuortwem_report return two numbers of 32 bits in one of 64: fuortwem_number takes out the high half,
 * fuortwem_value the low one. The high half is the number of the refusal, or 0 if there is none; of a day alone it may also be FUORTWEM_ESTIMATED,
 * which is no refusal.
 *
 * No function allocates or keeps anything from one call to the next: all may be called from several threads at once. */
#ifndef FUORTWEM_H
#define FUORTWEM_H

#include <stddef.h>
#include <stdint.h>

/* The version that this header is of: a million for the base, a thousand for each change request, one for each other change of the library.
 * fuortwem_version() says the version of the library that is linked. */
#define FUORTWEM_VERSION 1006000

/* In bytes: the longest log that is accepted, and buffers that are enough for the answers and for the report of every log. */
#define FUORTWEM_LONGEST_LOG 65536
#define FUORTWEM_LONGEST_ANSWERS 69341
#define FUORTWEM_LONGEST_REPORT 223457

/* A reading that is missing. It counts in the six readings of a day only. */
#define FUORTWEM_MISSING INT16_MIN

/* The wind limit of a station whose record is of kind 1, in tenths of a mile a day. */
#define FUORTWEM_ROUTINE_LIMIT 1500

/* In place of a refusal's number: the day has a figure, and its dew point alone was missing, so that the minimum stood for it. A refusal's number
 * has one byte, so no refusal has this one. */
#define FUORTWEM_ESTIMATED 256

/* The refusals' numbers. 11 was one once, and is given to nothing else. */
enum fuortwem_refusal {
    FUORTWEM_UNKNOWN_KIND = 1,      /* log: no record has this kind */
    FUORTWEM_CUT_OFF = 2,           /* log: it ends inside a record */
    FUORTWEM_STATION_FIELD = 3,     /* log or day alone: a field of the station is out of range */
    FUORTWEM_NO_STATION = 4,        /* log: a day or a crop before any station */
    FUORTWEM_LOG_TOO_LONG = 5,      /* log: it is longer than FUORTWEM_LONGEST_LOG */
    FUORTWEM_BAD_DATE = 6,          /* day: no date of the calendar or, in a log, not after the last good one */
    FUORTWEM_READING_MISSING = 7,   /* day: a reading is missing, and not the dew point alone */
    FUORTWEM_OUT_OF_RANGE = 8,      /* day: a reading is out of range, or an earlier mean that is handed in */
    FUORTWEM_OUT_OF_ORDER = 9,      /* day: minimum above mean, mean above maximum, or dew point above maximum */
    FUORTWEM_ABOVE_CLEAR = 10,      /* day: radiation above twice that of a clear day */
    FUORTWEM_BUFFER_TOO_SHORT = 12, /* a lent buffer is shorter than needed; the value is the length needed */
    FUORTWEM_CROP_FIELD = 13        /* log: a field of a crop is out of range */
};

/* The kinds of answers: the first byte of each. FUORTWEM_ANSWER_STATION has 5 bytes, each other one 9. */
enum fuortwem_answer {
    FUORTWEM_ANSWER_FIGURE = 3,
    FUORTWEM_ANSWER_REFUSED = 4,
    FUORTWEM_ANSWER_STATION = 5,
    FUORTWEM_ANSWER_CROP = 7,
    FUORTWEM_ANSWER_ESTIMATED = 9
};

/* The refusal's number of what a function returned: 0 for none. */
static inline uint32_t fuortwem_number(uint64_t returned) {
    return (uint32_t)(returned >> 32);
}

/* The value of what a function returned: the low half. */
static inline uint32_t fuortwem_value(uint64_t returned) {
    return (uint32_t)returned;
}

#ifdef __cplusplus
extern "C" {
#endif

/* The version of the library that is linked. Where it is not FUORTWEM_VERSION, the header is of another one. */
uint32_t fuortwem_version(void);

/* Judges one day, handed in with its station and up to three earlier means.
 *
 * Returned, for every value of the arguments:
 *
 *   number 0                    the day has a figure: the value is the water used, in 0.0001 inch
 *   number FUORTWEM_ESTIMATED   the same, with the minimum in place of a dew point that alone was missing
 *   number 3, 6, 7, 8, 9, 10    the first of these, in this order, that holds of the day; the value is 0
 *
 * Station: its code's four letters, A to Z, as ASCII; c1 to c5 of its clear-day radiation, in units of 1, 0.001, 0.0001, 0.000001 and
 * 0.000000001 cal/cm2/d, any value; the clear-day minimum in cal/cm2/d, 50 to 200; the elevation in metres, 0 to 3,000; the wind limit in
 * tenths of a mile a day, 1,000 to 1,500: a wind run above it counts as the limit.
 * Day: the year, 1950 to 2099; d, the day of the year, 1 to 365, or 366 in a leap year; maximum, minimum, mean and dew point in tenths of
 * a degree Fahrenheit, -94 to 1,291; solar radiation in tenths of a cal/cm2/d, 0 to 12,000; wind run in tenths of a mile a day, 0 to 9,999.
 * A reading that is missing is FUORTWEM_MISSING. Where the dew point alone is missing, the day is judged with the minimum in its place.
 * Earlier means: of the three calendar days before, the nearest day first, in tenths of a degree Fahrenheit. has_one, has_two and has_three
 * tell whether each is there, 0 for no and any other number for yes; one that is not there is not looked at. One that is there has the range of
 * the other temperatures.
 *
 * Every range is checked here, and there are no pointers. One thing is asked of the caller: a number that is wider than its parameter is cut
 * before the call, and nothing here can see it: 66,441 tenths become 905, in C and in Python alike. So test a number that comes from a wider
 * variable against its range before it is handed in. */
uint64_t fuortwem_judge(
    uint8_t first, uint8_t second, uint8_t third, uint8_t fourth,
    int16_t c1, int16_t c2, int16_t c3, int16_t c4, int16_t c5,
    uint16_t clear_minimum, uint16_t elevation, uint16_t wind_limit,
    uint16_t year, uint16_t d,
    int16_t maximum, int16_t minimum, int16_t mean, int16_t dewpoint, int16_t radiation, int16_t wind,
    uint8_t has_one, int16_t one, uint8_t has_two, int16_t two, uint8_t has_three, int16_t three);

/* Reads a log to its end and writes the answers to its records to the front of the answer buffer, in log order, or refuses the log.
 *
 * Returned, for every log and every length of the buffer:
 *
 *   number 0                the log is accepted: the value is the length written, and the bytes after it stay as they were
 *   number 1, 2, 3, 4, 13   the first record with a fault: the value is the offset in the log of its kind byte
 *   number 5                the log is too long: the value is 0
 *   number 12               the answer buffer is too short: the value is the length needed
 *
 * 5 is looked for first, then the records from the front, each for 1, 2, 3, 4 and 13 in this order, then 12.
 * A refused log leaves every byte of the answer buffer as it was. Refusals 6 to 10 of a day stand in its answer, and the log goes on.
 *
 * Asked of the caller: `log` may be read for `log_length` bytes, and `answers` read and written for `answers_length` bytes, during the whole
 * call; the two do not overlap; nothing else writes to the log or touches the answers meanwhile; neither pointer is NULL, even where its
 * length is 0. Everything else is checked here: the bytes of the log may be any. */
uint64_t fuortwem_read_log(const uint8_t *log, size_t log_length, uint8_t *answers, size_t answers_length);

/* Reads a log as fuortwem_read_log does, and writes its report to the front of the text buffer: ASCII, each line ended by a newline, no zero
 * byte at the end. Where fuortwem_read_log would refuse the log, 12 included, the report is the one line that says so.
 *
 * Returned, for every log and every length of the two buffers:
 *
 *   number 0    the report is written: the value is its length, and the bytes after it stay as they were
 *   number 12   the text buffer is too short: the value is the length needed, and every byte of the text buffer stays as it was
 *
 * Either way the answer buffer is left as fuortwem_read_log leaves it. A call with a text length of 0 gives the length needed, for no report is
 * empty.
 *
 * Asked of the caller: what fuortwem_read_log asks for the log and the answers, and the same as for the answers for `text` and
 * `text_length`; no two of the three overlap. */
uint64_t fuortwem_report(const uint8_t *log, size_t log_length, uint8_t *answers, size_t answers_length, uint8_t *text, size_t text_length);

#ifdef __cplusplus
}
#endif

#endif
