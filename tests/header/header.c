/* header.c: dsss.h as C99, twice in one unit, its records laid out as the library's are.
 *
 * As a program it prints the sentence of each number given, one a line. */
#include "dsss.h"
#include "dsss.h"

#include <errno.h>
#include <stdio.h>
#include <stdlib.h>

/* C99 has no static assertion: an array of -1 octets does not compile. */
#define HOLDS(name, fact) typedef char name[(fact) ? 1 : -1]

/* A number and a receiver behind one octet: each stands where its alignment puts it. */
struct number_behind {
    char octet;
    uint64_t number;
};
struct receiver_behind {
    char octet;
    dsss_receiver receiver;
};

HOLDS(number_is_64_bits, sizeof(uint64_t) == 8 && sizeof(size_t) == 8 && sizeof(float) == 4);
HOLDS(written_has_2, sizeof(dsss_written) == 16);
HOLDS(written_chips, offsetof(dsss_written, chips) == 8);
HOLDS(record_has_9, sizeof(dsss_record) == 72);
HOLDS(record_place, offsetof(dsss_record, place) == 8);
HOLDS(record_rate, offsetof(dsss_record, rate) == 16);
HOLDS(record_length, offsetof(dsss_record, length) == 24);
HOLDS(record_n, offsetof(dsss_record, n) == 32);
HOLDS(record_used, offsetof(dsss_record, used) == 40);
HOLDS(record_clock, offsetof(dsss_record, clock) == 48);
HOLDS(record_lead, offsetof(dsss_record, lead) == 56);
HOLDS(record_symbol, offsetof(dsss_record, symbol) == 64);
HOLDS(coming_has_9, sizeof(dsss_coming) == 72);
HOLDS(coming_place, offsetof(dsss_coming, place) == 8);
HOLDS(coming_rate, offsetof(dsss_coming, rate) == 16);
HOLDS(coming_length, offsetof(dsss_coming, length) == 24);
HOLDS(coming_clock, offsetof(dsss_coming, clock) == 32);
HOLDS(coming_n, offsetof(dsss_coming, n) == 40);
HOLDS(coming_used, offsetof(dsss_coming, used) == 48);
HOLDS(coming_at, offsetof(dsss_coming, at) == 56);
HOLDS(coming_count, offsetof(dsss_coming, count) == 64);
HOLDS(found_has_6, sizeof(dsss_found) == 48);
HOLDS(found_offset, offsetof(dsss_found, offset) == 8);
HOLDS(found_rate, offsetof(dsss_found, rate) == 16);
HOLDS(found_length, offsetof(dsss_found, length) == 24);
HOLDS(found_clock, offsetof(dsss_found, clock) == 32);
HOLDS(found_n, offsetof(dsss_found, n) == 40);
HOLDS(reason_has_4, sizeof(dsss_reason) == 32);
HOLDS(reason_place, offsetof(dsss_reason, place) == 8);
HOLDS(reason_expected, offsetof(dsss_reason, expected) == 16);
HOLDS(reason_found, offsetof(dsss_reason, found) == 24);
HOLDS(report_has_31, sizeof(dsss_report) == 248);
HOLDS(report_frames, offsetof(dsss_report, frames) == 8);
HOLDS(report_octets, offsetof(dsss_report, octets) == 40);
HOLDS(report_refused, offsetof(dsss_report, refused) == 72);
HOLDS(report_airtime, offsetof(dsss_report, airtime) == 216);
HOLDS(report_some, offsetof(dsss_report, some) == 224);
HOLDS(report_lead, offsetof(dsss_report, lead) == 232);
HOLDS(report_recording, offsetof(dsss_report, recording) == 240);
HOLDS(counted_has_32, sizeof(dsss_counted) == 256);
HOLDS(counted_report, offsetof(dsss_counted, report) == 8);
HOLDS(chips_has_2, sizeof(dsss_chips) == 16);
HOLDS(chips_len, offsetof(dsss_chips, chips_len) == 8);
HOLDS(text_has_2, sizeof(dsss_text) == 16);
HOLDS(text_octets, offsetof(dsss_text, octets) == 8);
HOLDS(settings_has_4, sizeof(dsss_settings) == 32);
HOLDS(settings_kind, offsetof(dsss_settings, kind) == 8);
HOLDS(settings_rate, offsetof(dsss_settings, rate) == 16);
HOLDS(settings_phase, offsetof(dsss_settings, phase) == 24);
HOLDS(receiver_has_29, sizeof(dsss_receiver) == 232 && sizeof(dsss_receiver) == 29 * sizeof(uint64_t));
HOLDS(receiver_octets, sizeof(dsss_receiver) == DSSS_RECEIVER);
HOLDS(receiver_alignment, offsetof(struct receiver_behind, receiver) == offsetof(struct number_behind, number));
HOLDS(store_written, DSSS_STORE_OCTETS == 2 + 3 * 4 + 3); /* head, entries, bodies */
HOLDS(store_largest, DSSS_STORE_MAX == 2 + 16 * 4 + 16 * 255);
HOLDS(most_recordings, DSSS_RECORDINGS_MAX == 1000);
HOLDS(longest_text, DSSS_TEXT_MAX == 3 * 64 + 65 + 9 * 37 + 8 * 38 + 29 + 57); /* rates, refusals, airtime, lead */
HOLDS(most_offsets, DSSS_OFFSETS_MAX == 4096);
HOLDS(full_chip, DSSS_FULL_CHIP == 1024);
HOLDS(front_long, 11 * DSSS_FRONT_SYMBOLS(DSSS_LONG) == DSSS_FRONT_LONG);
HOLDS(front_short, 11 * DSSS_FRONT_SYMBOLS(DSSS_SHORT) == DSSS_FRONT_SHORT);
HOLDS(longest_frame, DSSS_CHIPS_MAX == DSSS_FRONT_LONG + 88 * DSSS_PAYLOAD_MAX);
HOLDS(longest_by_macro, DSSS_CHIPS_MAX == DSSS_FRAME_CHIPS(DSSS_LONG, DSSS_RATE_1, DSSS_PAYLOAD_MAX));
HOLDS(frame_at_2, DSSS_FRAME_CHIPS(DSSS_SHORT, DSSS_RATE_2, 3) == 1056 + 44 * 3);
HOLDS(frame_at_5_5, DSSS_FRAME_CHIPS(DSSS_LONG, DSSS_RATE_5_5, 1 + 1) == 2112 + 16 * 2);
HOLDS(frame_at_11, DSSS_FRAME_CHIPS(DSSS_SHORT, DSSS_RATE_11, DSSS_PAYLOAD_MAX) == 1056 + 8 * 4095);

int main(int argc, char **argv)
{
    for (int k = 1; k < argc; k++) {
        char *end;
        errno = 0;
        unsigned long long number = strtoull(argv[k], &end, 10);
        if (errno != 0 || end == argv[k] || *end != '\0') {
            fprintf(stderr, "header: %s is not a number\n", argv[k]);
            return 1;
        }
        puts(dsss_sentence(number));
    }
    return 0;
}
