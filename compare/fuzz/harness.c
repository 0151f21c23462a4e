/* Hands the bytes of standard input to the proved library and aborts if a promise of read_log or of report is broken.
 *
 * The first two bytes choose the lengths of the answer buffer and of a text buffer, the rest is the log. Each input is read in several placements:
 * log and answer buffer end at a page that may not be touched; then they begin right after one; then, when files are
 * named on the command line instead, both lie in heap blocks of their exact size, for valgrind or AddressSanitizer.
 * In each placement the log's report is asked for too, with text buffers of several lengths. The log is mapped read-only.
 *
 * Under AFL++ this program is its own fork server and takes many inputs in one process; run by hand it takes one. */
#define _GNU_SOURCE
#include <signal.h>
#include <stdbool.h>
#include <stdint.h>
#include <stdio.h>
#include <stdlib.h>
#include <string.h>
#include <sys/mman.h>
#include <sys/wait.h>
#include <unistd.h>

#include "fuortwem.h"

enum {
    PAGE = 4096,
    /* A log refused as too long, with room to spare. */
    LOG_ROOM = FUORTWEM_LONGEST_LOG + 2 * PAGE,
    ANSWER_ROOM = 32 * PAGE,
    /* Room for every report, and for some bytes more. */
    TEXT_ROOM = 56 * PAGE,
    STATION_LENGTH = 19,
    LIMITED_STATION_LENGTH = 21,
    DAY_LENGTH = 17,
    CROP_LENGTH = 22,
    /* Where a day record has its dew point. */
    DEW_POINT = 11,
    STATION_ANSWER_LENGTH = 5,
    /* A day's answer and a crop's. */
    FIGURE_ANSWER_LENGTH = 9,
    /* No wind run in range is higher. */
    HIGHEST_WIND = 9999,
    INPUTS_A_PROCESS = 2000,
    /* The two descriptors on which AFL++ speaks to a fork server. */
    CONTROL = 198,
    STATUS = 199,
};

static void require(bool holds, const char *promise) {
    if (!holds) {
        fprintf(stderr, "broken promise: %s\n", promise);
        abort();
    }
}

/* Memory between two pages that may not be touched; `shown` is how the library sees it, `written` how the harness does. */
struct region {
    uint8_t *shown;
    uint8_t *written;
    size_t size;
};

static struct region guarded(size_t size, int protection) {
    int file = memfd_create("region", 0);
    require(file >= 0 && ftruncate(file, (off_t)size) == 0, "memory for the harness");
    uint8_t *around = mmap(NULL, size + 2 * PAGE, PROT_NONE, MAP_PRIVATE | MAP_ANONYMOUS, -1, 0);
    require(around != MAP_FAILED, "memory for the harness");
    uint8_t *shown = mmap(around + PAGE, size, protection, MAP_SHARED | MAP_FIXED, file, 0);
    uint8_t *written = mmap(NULL, size, PROT_READ | PROT_WRITE, MAP_SHARED, file, 0);
    require(shown != MAP_FAILED && written != MAP_FAILED, "memory for the harness");
    close(file);
    return (struct region){shown, written, size};
}

static struct region log_region, answer_region, text_region;

static uint32_t refusal(uint64_t returned) { return (uint32_t)(returned >> 32); }
static uint32_t value(uint64_t returned) { return (uint32_t)returned; }

static uint32_t number(const uint8_t *bytes, int width) {
    uint32_t whole = 0;
    for (int i = 0; i < width; i++) {
        whole = whole << 8 | bytes[i];
    }
    return whole;
}

static uint16_t plain(const uint8_t *bytes) { return (uint16_t)number(bytes, 2); }
static int16_t tenths(const uint8_t *bytes) { return (int16_t)number(bytes, 2); }

static bool capitals(const uint8_t *letters) {
    bool good = true;
    for (int i = 0; i < 4; i++) {
        good = good && letters[i] >= 'A' && letters[i] <= 'Z';
    }
    return good;
}

static bool is_station(const uint8_t *record) { return record[0] == 1 || record[0] == 8; }

static uint16_t wind_limit(const uint8_t *station) { return station[0] == 8 ? plain(station + 19) : FUORTWEM_ROUTINE_LIMIT; }

static bool station_in_range(const uint8_t *station) {
    uint16_t minimum = plain(station + 15), elevation = plain(station + 17), limit = wind_limit(station);
    return capitals(station + 1) && minimum >= 50 && minimum <= 200 && elevation <= 3000 && limit >= 1000 &&
           limit <= FUORTWEM_ROUTINE_LIMIT;
}

/* Whether a reading of this day other than the dew point is missing. */
static bool other_reading_missing(const uint8_t *day) {
    bool missing = false;
    for (int at = 5; at < DAY_LENGTH; at += 2) {
        missing = missing || (at != DEW_POINT && tenths(day + at) == FUORTWEM_MISSING);
    }
    return missing;
}

static bool dew_point_alone_missing(const uint8_t *day) {
    return tenths(day + DEW_POINT) == FUORTWEM_MISSING && !other_reading_missing(day);
}

/* The day handed in alone, with this limit, this dew point and this wind run. */
static uint64_t judge(const uint8_t *station, uint16_t limit, const uint8_t *day, int16_t dewpoint, int16_t wind) {
    const uint8_t *s = station + 1, *d = day + 1;
    return fuortwem_judge(
        s[0], s[1], s[2], s[3], tenths(s + 4), tenths(s + 6), tenths(s + 8), tenths(s + 10), tenths(s + 12), plain(s + 14),
        plain(s + 16), limit, plain(d), plain(d + 2), tenths(d + 4), tenths(d + 6), tenths(d + 8), dewpoint, tenths(d + 12),
        wind, 0, 0, 0, 0, 0, 0);
}

/* The first day of a block has no earlier means and no earlier date: handed in alone it must be answered the same. */
static void judge_first_day(const uint8_t *station, const uint8_t *day, const uint8_t *answer) {
    const uint8_t *d = day + 1;
    uint16_t limit = wind_limit(station);
    int16_t minimum = tenths(d + 6), dewpoint = tenths(day + DEW_POINT), wind = tenths(d + 14);
    uint64_t returned = judge(station, limit, day, dewpoint, wind);
    if (wind > limit && wind <= HIGHEST_WIND) {
        uint64_t at_limit = judge(station, FUORTWEM_ROUTINE_LIMIT, day, dewpoint, (int16_t)limit);
        require(returned == at_limit, "a wind run above the limit counts as the limit");
    }
    if (dew_point_alone_missing(day)) {
        uint64_t substituted = judge(station, limit, day, minimum, wind);
        uint64_t mark = refusal(substituted) == 0 ? (uint64_t)FUORTWEM_ESTIMATED << 32 : 0;
        require(returned == (substituted | mark), "the minimum takes the place of a dew point that alone is missing");
    }
    bool estimated = refusal(returned) == FUORTWEM_ESTIMATED, answered = estimated || refusal(returned) == 0;
    uint32_t kind = estimated ? 9 : answered ? 3 : 4;
    uint32_t verdict = answered ? value(returned) : refusal(returned);
    require(answer[0] == kind && memcmp(answer + 1, d, 4) == 0, "a day's answer begins with its kind and date");
    require(number(answer + 5, 4) == verdict, "a block's first day is answered as when handed in alone");
}

/* Which days have a figure with the mark, which without, and which have none. */
static void check_kind(const uint8_t *day, const uint8_t *answer) {
    uint8_t answered = dew_point_alone_missing(day) ? 9 : 3;
    require(answer[0] == 4 || answer[0] == answered, "9 is for a day with the dew point alone missing, 3 for any other");
    if (other_reading_missing(day)) {
        uint32_t verdict = number(answer + 5, 4);
        require(answer[0] == 4 && (verdict == 6 || verdict == 7), "a day with another reading missing is refused with 6 or 7");
    } else {
        require(answer[0] != 4 || number(answer + 5, 4) != 7, "7 is for a day with another reading missing");
    }
}

/* A crop record, taken apart. */
struct crop {
    const uint8_t *letters, *percentages;
    uint16_t year, start, full;
};

static struct crop crop_of(const uint8_t *record) {
    return (struct crop){record + 1, record + 11, plain(record + 5), plain(record + 7), plain(record + 9)};
}

static bool crop_in_range(struct crop crop) {
    bool good = capitals(crop.letters) && crop.year >= 1950 && crop.year <= 2099 && crop.start >= 1 &&
                crop.full > crop.start && crop.full <= 365;
    for (int i = 0; i <= 10; i++) {
        good = good && crop.percentages[i] <= 200;
    }
    return good;
}

/* The crop's answer after that of a day, if the day has one; returns its length. */
static size_t check_crop_answer(struct crop crop, const uint8_t *day, const uint8_t *answer) {
    uint16_t d = plain(day + 3);
    if (answer[0] == 4 || plain(day + 1) != crop.year || d < crop.start || d > crop.full) {
        return 0;
    }
    uint64_t length = crop.full - crop.start, tens = 10 * (d - crop.start);
    uint64_t i = tens / length, r = tens % length;
    /* At the last day, stage 10 stands alone. */
    uint64_t percentage = crop.percentages[i] * (length - r) + (r == 0 ? 0 : crop.percentages[i + 1] * r);
    uint64_t figure = (2 * percentage * number(answer + 5, 4) + 100 * length) / (200 * length);
    const uint8_t *own = answer + FIGURE_ANSWER_LENGTH;
    require(own[0] == 7 && memcmp(own + 1, crop.letters, 4) == 0, "a crop's answer begins with its kind and letters");
    require(number(own + 5, 4) == figure, "a crop figure is the percentage of the day's, to nearest");
    return FIGURE_ANSWER_LENGTH;
}

/* The answers stand in log order and fill the length exactly. */
static void check_answers(const uint8_t *log, size_t log_length, const uint8_t *answers, size_t length) {
    const uint8_t *end = log + log_length, *station = NULL, *crop = NULL, *answer = answers;
    bool first = false;
    while (log < end) {
        if (is_station(log)) {
            require(station_in_range(log), "an accepted log's stations are in range");
            require(answer[0] == 5 && memcmp(answer + 1, log + 1, 4) == 0, "a station's answer is its code");
            station = log;
            crop = NULL;
            first = true;
            log += log[0] == 8 ? LIMITED_STATION_LENGTH : STATION_LENGTH;
            answer += STATION_ANSWER_LENGTH;
        } else if (log[0] == 6) {
            require(crop_in_range(crop_of(log)), "an accepted log's crops are in range");
            crop = log;
            log += CROP_LENGTH;
        } else {
            if (first) {
                judge_first_day(station, log, answer);
            }
            first = false;
            check_kind(log, answer);
            size_t after = crop == NULL ? 0 : check_crop_answer(crop_of(crop), log, answer);
            log += DAY_LENGTH;
            answer += FIGURE_ANSWER_LENGTH + after;
        }
    }
    require((size_t)(answer - answers) == length, "the length is that of the answers");
}

/* A byte of a buffer before it is lent: another one in each pass, so that a byte left alone is seen. */
static uint8_t filler(size_t place, uint8_t pass) { return (uint8_t)(place * 7 + pass); }

/* A block of memory, of which `lent` is lent for `length` bytes; the rest is watched. */
struct buffer {
    uint8_t *block;
    size_t size;
    uint8_t *lent;
    size_t length;
};

static void fill(struct buffer buffer, uint8_t pass) {
    for (size_t i = 0; i < buffer.size; i++) {
        buffer.block[i] = filler(i, pass);
    }
}

/* Every byte but the first `wrote` that were lent is as it was filled. */
static void require_filler(struct buffer buffer, size_t wrote, uint8_t pass) {
    require(wrote <= buffer.length, "no more is written than was lent");
    size_t start = (size_t)(buffer.lent - buffer.block);
    for (size_t i = 0; i < buffer.size; i++) {
        bool written = i >= start && i < start + wrote;
        require(written || buffer.block[i] == filler(i, pass), "bytes beyond what is written stay as they were");
    }
}

static size_t length_written(uint64_t returned) { return refusal(returned) == 0 ? value(returned) : 0; }

/* One pass. Returns what the library returned. */
static uint64_t run(const uint8_t *log, size_t log_length, struct buffer answers, uint8_t pass) {
    fill(answers, pass);
    uint64_t returned = fuortwem_read_log(log, log_length, answers.lent, answers.length);
    require_filler(answers, length_written(returned), pass);
    return returned;
}

/* The text that a report should have, as far as it is built. */
static struct {
    uint8_t bytes[TEXT_ROOM];
    size_t length;
} built;

static void put(const void *bytes, size_t length) {
    require(length <= TEXT_ROOM - built.length, "a report has no more than its limit");
    memcpy(built.bytes + built.length, bytes, length);
    built.length += length;
}

static void put_text(const char *text) { put(text, strlen(text)); }

/* With at least so many digits. */
static void put_number(uint64_t whole, size_t digits) {
    uint8_t reversed[20];
    size_t length = 0;
    for (; whole > 0 || length < digits; whole /= 10) {
        reversed[length++] = (uint8_t)('0' + whole % 10);
    }
    while (length > 0) {
        put(&reversed[--length], 1);
    }
}

static void put_inches(uint64_t figure) {
    put_number(figure / 10000, 1);
    put_text(".");
    put_number(figure % 10000, 4);
}

static bool leap(uint32_t year) { return year % 4 == 0 && (year % 100 != 0 || year % 400 == 0); }

/* The month of a good date, 1 to 12: the last that has fewer days of its year before it than d. */
static uint32_t month_of(uint32_t year, uint32_t d) {
    static const uint32_t days_before[] = {0, 31, 59, 90, 120, 151, 181, 212, 243, 273, 304, 334};
    uint32_t month = 12;
    while (month > 1 && d <= days_before[month - 1] + (month > 2 && leap(year))) {
        month--;
    }
    return month;
}

/* The answered days of a month or of a block, and their figures' sum. */
struct total {
    uint32_t year, month, days;
    uint64_t sum;
};

static void put_total(struct total total) {
    put_number(total.days, 1);
    put_text(" ");
    put_inches(total.sum);
    put_text("\n");
}

static void put_month(const uint8_t *code, struct total total) {
    if (total.days > 0) {
        put(code, 4);
        put_text(" ");
        put_number(total.year, 4);
        put_text(" ");
        put_number(total.month, 2);
        put_text(" ");
        put_total(total);
    }
}

/* The lines after those of a block's answers. An answered day is later than those before it, so that the days of a month
 * stand together. */
static void put_totals(const uint8_t *code, const uint8_t *answer, const uint8_t *end) {
    struct total month = {0}, season = {0};
    for (; answer < end; answer += FIGURE_ANSWER_LENGTH) {
        if (answer[0] != 3 && answer[0] != 9) {
            continue;
        }
        uint32_t year = plain(answer + 1), figure = number(answer + 5, 4);
        uint32_t of_year = month_of(year, plain(answer + 3));
        if (year != month.year || of_year != month.month) {
            put_month(code, month);
            month = (struct total){year, of_year, 0, 0};
        }
        month.days++;
        month.sum += figure;
        season.days++;
        season.sum += figure;
    }
    put_month(code, month);
    put(code, 4);
    put_text(" ALL ");
    put_total(season);
}

/* The line of a day's answer or of a crop's. */
static void put_line(const uint8_t *code, const uint8_t *answer) {
    uint32_t last = number(answer + 5, 4);
    if (answer[0] == 7) {
        put(answer + 1, 4);
        put_text(" ");
    } else {
        put(code, 4);
        put_text(" ");
        put_number(plain(answer + 1), 4);
        put_text(" ");
        put_number(plain(answer + 3), 3);
        put_text(" ");
    }
    if (answer[0] == 4) {
        put_text("R");
        put_number(last, 1);
    } else {
        put_inches(last);
    }
    put_text(answer[0] == 9 ? " E\n" : "\n");
}

/* The text is the line of a refused log, or the header and, for each block, the lines of its answers and of its totals. */
static void check_text(const uint8_t *text, size_t length, uint64_t read, const uint8_t *answers) {
    built.length = 0;
    if (refusal(read) != 0) {
        put_text("REFUSED ");
        put_number(refusal(read), 1);
        put_text(" ");
        put_number(value(read), 1);
        put_text("\n");
        require(length == built.length && memcmp(text, built.bytes, length) == 0, "a refused log's report is its one line");
        return;
    }
    const uint8_t *answer = answers, *end = answers + value(read);
    put_text("STN YEAR DAY ET\n");
    while (answer < end) {
        const uint8_t *code = answer + 1, *first = answer + STATION_ANSWER_LENGTH;
        for (answer = first; answer < end && answer[0] != 5; answer += FIGURE_ANSWER_LENGTH) {
            put_line(code, answer);
        }
        put_totals(code, first, answer);
    }
    require(length == built.length && memcmp(text, built.bytes, length) == 0,
            "a report has the header, and each block's answers and totals");
}

/* One report, for a log that was just read into `answers` with the result `read`. Returns what the library returned. */
static uint64_t report(const uint8_t *log, size_t log_length, struct buffer answers, uint64_t read, struct buffer text,
                       uint8_t pass) {
    static uint8_t kept[ANSWER_ROOM];
    size_t wrote = length_written(read);
    memcpy(kept, answers.lent, wrote);
    fill(answers, pass);
    fill(text, pass);
    uint64_t returned = fuortwem_report(log, log_length, answers.lent, answers.length, text.lent, text.length);
    require_filler(answers, wrote, pass);
    require(memcmp(kept, answers.lent, wrote) == 0, "a report leaves the answers as read_log does");
    require(refusal(returned) == 0 || refusal(returned) == FUORTWEM_BUFFER_TOO_SHORT, "a report is written or needs a longer buffer");
    require((refusal(returned) == 0) == (value(returned) <= text.length), "a report is written where it fits");
    require_filler(text, length_written(returned), pass);
    return returned;
}

/* `length` bytes at the end of a region or at its front, and as much around them as shows a write that strays, without
 * filling the whole region for every input. */
static struct buffer placed(struct region region, size_t length, bool at_end) {
    size_t watched = length + 64 < region.size ? length + 64 : region.size;
    uint8_t *end = region.shown + region.size;
    return at_end ? (struct buffer){end - watched, watched, end - length, length}
                  : (struct buffer){region.shown, watched, region.shown, length};
}

/* The length that two bytes ask for, of a buffer that needs `needed` bytes. */
static size_t chosen_length(uint32_t choice, size_t needed, size_t room) {
    size_t step = choice >> 2;
    size_t length = step;
    switch (choice & 3) {
    case 0: length = needed; break;
    case 1: length = needed - (needed == 0 ? 0 : 1 + step % needed); break;
    case 2: length = needed + step; break;
    }
    return length < room ? length : room;
}

static void run_in_heap(const uint8_t *log, size_t log_length, size_t length, uint64_t expected, size_t text_needed) {
    uint8_t *copy = malloc(log_length), *answer_block = malloc(length);
    struct buffer answers = {answer_block, length, answer_block, length};
    memcpy(copy, log, log_length);
    require(run(copy, log_length, answers, 7) == expected, "the same log gets the same result");
    for (size_t lent = text_needed - 1; lent <= text_needed; lent++) {
        uint8_t *text_block = malloc(lent);
        struct buffer text = {text_block, lent, text_block, lent};
        uint64_t returned = report(copy, log_length, answers, expected, text, 8);
        require(value(returned) == text_needed, "the same log gets a report of the same length");
        free(text_block);
    }
    free(copy);
    free(answer_block);
}

static void try_input(const uint8_t *input, size_t size, bool in_heap) {
    if (size < 2) {
        return;
    }
    uint32_t choice = number(input, 2);
    const uint8_t *log = input + 2;
    size_t log_length = size - 2 < LOG_ROOM ? size - 2 : LOG_ROOM;

    uint8_t *last_log = log_region.shown + (log_region.size - log_length);
    memcpy(log_region.written + (log_region.size - log_length), log, log_length);
    uint8_t *end = answer_region.shown + answer_region.size;
    uint64_t unlent = fuortwem_read_log(last_log, log_length, end, 0);
    bool sound = refusal(unlent) == 0 || refusal(unlent) == FUORTWEM_BUFFER_TOO_SHORT;
    require(refusal(unlent) <= 5 || sound || refusal(unlent) == FUORTWEM_CROP_FIELD, "a log's refusal is 1 to 5, 12 or 13");
    const uint8_t *refused = last_log + (sound ? 0 : value(unlent));
    if (refusal(unlent) == FUORTWEM_UNKNOWN_KIND) {
        require(!is_station(refused) && refused[0] != 2 && refused[0] != 6, "1 is for a kind that is none of 1, 2, 6 and 8");
    }
    if (refusal(unlent) == FUORTWEM_STATION_FIELD) {
        require(is_station(refused) && !station_in_range(refused), "3 is for a station out of range");
    }
    if (refusal(unlent) == FUORTWEM_CROP_FIELD) {
        require(refused[0] == 6 && !crop_in_range(crop_of(refused)), "13 is for a crop out of range");
    }
    require((refusal(unlent) == 0) == (log_length == 0), "without a buffer only the empty log is accepted");

    size_t needed = sound ? value(unlent) : 0;
    size_t length = chosen_length(choice, needed, ANSWER_ROOM);
    uint64_t expected = sound && length >= needed ? needed : unlent;

    struct buffer last = placed(answer_region, length, true);
    uint64_t returned = run(last_log, log_length, last, 1);
    require(returned == expected, "refused as without a buffer, or accepted once the buffer is long enough");
    size_t wrote = length_written(returned);
    check_answers(last_log, refusal(returned) == 0 ? log_length : 0, last.lent, wrote);
    static uint8_t kept[ANSWER_ROOM], kept_text[TEXT_ROOM];
    memcpy(kept, last.lent, wrote);

    uint64_t too_short = report(last_log, log_length, last, expected, placed(text_region, 0, true), 2);
    size_t text_needed = value(too_short);
    require(refusal(too_short) == FUORTWEM_BUFFER_TOO_SHORT && text_needed <= FUORTWEM_LONGEST_REPORT, "no report is empty or longer than the longest");
    returned = report(last_log, log_length, last, expected, placed(text_region, text_needed - 1, true), 3);
    require(returned == too_short, "one byte less than a report needs is too short");
    struct buffer text = placed(text_region, text_needed, true);
    returned = report(last_log, log_length, last, expected, text, 4);
    require(returned == text_needed, "a buffer of the length that a report needs is long enough");
    check_text(text.lent, text_needed, expected, last.lent);
    memcpy(kept_text, text.lent, text_needed);

    memcpy(log_region.written, log, log_length);
    struct buffer first = placed(answer_region, length, false);
    returned = run(log_region.shown, log_length, first, 5);
    require(returned == expected && memcmp(kept, first.lent, wrote) == 0, "the same log gets the same answers");

    /* The two bytes turned by two bits, so that each kind of text buffer meets each kind of answer buffer. */
    size_t text_length = chosen_length((choice << 2 | choice >> 14) & 0xFFFF, text_needed, TEXT_ROOM);
    text = placed(text_region, text_length, false);
    returned = report(log_region.shown, log_length, first, expected, text, 6);
    require(returned == (text_length < text_needed ? too_short : text_needed), "the same log needs the same length");
    require(memcmp(kept_text, text.lent, length_written(returned)) == 0, "the same log gets the same report");

    if (in_heap) {
        run_in_heap(log, log_length, length, expected, text_needed);
    }
}

static uint8_t input[2 + LOG_ROOM];

static size_t read_whole(FILE *file) { return fread(input, 1, sizeof input, file); }

static size_t read_descriptor(void) {
    size_t size = 0;
    ssize_t more;
    while (size < sizeof input && (more = read(STDIN_FILENO, input + size, sizeof input - size)) > 0) {
        size += (size_t)more;
    }
    return size;
}

/* In the process of the inputs: stop after each, and go on when the fork server says so. */
static void take_inputs(void) {
    for (int i = 0; i < INPUTS_A_PROCESS; i++) {
        try_input(input, read_descriptor(), false);
        if (i + 1 < INPUTS_A_PROCESS) {
            raise(SIGSTOP);
        }
    }
}

/* AFL++'s protocol: for each input four bytes come in, the process and then its status go out. */
static void serve(void) {
    pid_t child = -1;
    bool stopped = false;
    int32_t killed;
    while (read(CONTROL, &killed, 4) == 4) {
        int status;
        if (stopped && killed) {
            waitpid(child, &status, 0);
            stopped = false;
        }
        if (stopped) {
            kill(child, SIGCONT);
        } else {
            child = fork();
            require(child >= 0, "a process for the harness");
            if (child == 0) {
                close(CONTROL);
                close(STATUS);
                take_inputs();
                _exit(0);
            }
        }
        int32_t process = child;
        if (write(STATUS, &process, 4) != 4 || waitpid(child, &status, WUNTRACED) < 0) {
            return;
        }
        stopped = WIFSTOPPED(status);
        if (write(STATUS, &status, 4) != 4) {
            return;
        }
    }
}

int main(int count, char **arguments) {
    log_region = guarded(LOG_ROOM, PROT_READ);
    answer_region = guarded(ANSWER_ROOM, PROT_READ | PROT_WRITE);
    text_region = guarded(TEXT_ROOM, PROT_READ | PROT_WRITE);
    for (int i = 1; i < count; i++) {
        FILE *file = fopen(arguments[i], "rb");
        require(file != NULL, "a file that can be read");
        size_t size = read_whole(file);
        fclose(file);
        try_input(input, size, true);
    }
    if (count > 1) {
        return 0;
    }
    int32_t hello = 0;
    if (write(STATUS, &hello, 4) == 4) {
        serve();
    } else {
        try_input(input, read_descriptor(), false);
    }
    return 0;
}
