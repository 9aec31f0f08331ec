/* plain_report.c: the month's report in plain C, after docs/RULES.md, as a good C engineer would by hand.
 *
 * A recording is read as any other, into octets that are then forgotten, and its record counted. The text is spelled
 * into a row that holds the longest, and copied where there is room for it. No allocation, nothing written for one
 * processor. Nothing here is proved. */
#include "plain_frame.h"

#include <string.h>

/* ---- Counting -------------------------------------------------------------------------------- */

enum { RATES = 4, NUMBERS = 18 }; /* entries of a report's rows */

/* What a thousand recordings come to, at most: each a frame of 4,095 octets, long and with the largest LENGTH. */
enum {
    FRAMES_MOST = DSSS_RECORDINGS_MAX,
    OCTETS_MOST = DSSS_RECORDINGS_MAX * DSSS_PAYLOAD_MAX,
    AIRTIME_MOST = DSSS_RECORDINGS_MAX * (192 + 8 * DSSS_PAYLOAD_MAX)
};

static int at_most(uint64_t most, const uint64_t *row, size_t len)
{
    int above = 0;

    for (size_t k = 0; k < len; k++)
        above |= row[k] > most;
    return !above;
}

/* Whether one recording more can be counted, and no number of the report wraps round. */
static int takes_more(const dsss_report *report)
{
    return report->seen < DSSS_RECORDINGS_MAX && at_most(FRAMES_MOST, report->frames, RATES)
           && at_most(OCTETS_MOST, report->octets, RATES) && at_most(FRAMES_MOST, report->refused, NUMBERS)
           && report->airtime <= AIRTIME_MOST;
}

/* A smaller lead is kept, so that the first of equals stays; the first of all is smaller than none. */
static void count_frame(dsss_report *report, uint64_t kind, const dsss_record *record)
{
    size_t rate = (size_t)(rate_of(record->rate) - rates);

    report->frames[rate] += 1;
    report->octets[rate] += record->n;
    report->airtime += (kind == DSSS_LONG ? 192 : 96) + record->length;
    if (report->some == 0 || record->lead < report->lead) {
        report->some = 1;
        report->lead = record->lead;
        report->recording = report->seen;
    }
}

/* Reads a recording and counts what comes of it. */
static void count_in(dsss_report *report, uint64_t kind, const uint8_t *chips, size_t chips_len)
{
    uint8_t octets[DSSS_PAYLOAD_MAX];
    dsss_record record = plain_read_hard(kind, chips, chips_len, octets, sizeof octets);

    if (record.number == 0)
        count_frame(report, kind, &record);
    else
        report->refused[record.number] += 1;
    report->seen += 1;
}

dsss_counted plain_report_add(dsss_report report, uint64_t kind, const uint8_t *chips, size_t chips_len)
{
    dsss_counted counted = {DSSS_REFUSED_REPORT, report};

    if (takes_more(&report)) {
        counted.number = 0;
        count_in(&counted.report, kind, chips, chips_len);
    }
    return counted;
}

/* A report of a thousand recordings at most has no number that is too large: it is not asked. */
dsss_counted plain_report_list(const uint64_t *kinds, size_t kinds_len, const dsss_chips *list, size_t list_len)
{
    size_t first = list_len < DSSS_RECORDINGS_MAX ? list_len : DSSS_RECORDINGS_MAX;
    dsss_counted counted = {0, {0}};

    if (kinds_len != list_len) {
        counted.number = DSSS_REFUSED_ROWS;
        return counted;
    }
    for (size_t k = 0; k < first; k++)
        count_in(&counted.report, kinds[k], list[k].chips, list[k].chips_len);
    counted.number = list_len > first ? DSSS_REFUSED_REPORT : 0;
    return counted;
}

/* ---- The text -------------------------------------------------------------------------------- */

struct text {
    uint8_t octets[DSSS_TEXT_MAX];
    size_t len;
};

static inline void put_octets(struct text *text, const void *octets, size_t len)
{
    memcpy(text->octets + text->len, octets, len);
    text->len += len;
}

/* A word, as it stands, and a number in decimal digits. */
static void put(struct text *text, const char *word, uint64_t number)
{
    uint8_t digits[20]; /* the most that 64 bits have */
    size_t first = sizeof digits;

    do {
        digits[--first] = (uint8_t)('0' + number % 10);
        number /= 10;
    } while (number != 0);
    put_octets(text, word, strlen(word));
    put_octets(text, digits + first, sizeof digits - first);
}

static void end_line(struct text *text)
{
    text->octets[text->len++] = 10;
}

static void put_rates(struct text *text, const dsss_report *report)
{
    for (size_t k = 0; k < RATES; k++) {
        put(text, "rate ", rates[k].code);
        put(text, " frames ", report->frames[k]);
        put(text, " octets ", report->octets[k]);
        end_line(text);
    }
}

/* Only numbers met have a line; 0 is no refusal. */
static void put_refusals(struct text *text, const dsss_report *report)
{
    for (size_t number = 1; number < NUMBERS; number++)
        if (report->refused[number] != 0) {
            put(text, "refused ", number);
            put(text, " count ", report->refused[number]);
            end_line(text);
        }
}

static void put_lead(struct text *text, const dsss_report *report)
{
    static const char none[] = "lead none";

    if (report->some == 0)
        put_octets(text, none, sizeof none - 1);
    else {
        put(text, "lead ", report->lead);
        put(text, " recording ", report->recording);
    }
    end_line(text);
}

dsss_text plain_report_text(dsss_report report, uint8_t *text, size_t text_len)
{
    struct text spelled;
    dsss_text answer = {DSSS_REFUSED_OCTET_ROOM, 0};

    spelled.len = 0;
    put_rates(&spelled, &report);
    put_refusals(&spelled, &report);
    put(&spelled, "airtime ", report.airtime);
    end_line(&spelled);
    put_lead(&spelled, &report);
    if (text_len > 0)
        memset(text, 0, text_len);
    if (text_len >= spelled.len) {
        memcpy(text, spelled.octets, spelled.len);
        answer.number = 0;
        answer.octets = spelled.len;
    }
    return answer;
}
