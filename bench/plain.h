/* plain.h: the fifteen calls of dsss.h in plain C, and the parts of them that are worth timing alone.
 *
 * The calls take, answer and fill what dsss_write, dsss_read_hard, dsss_read_soft, dsss_read_bytes, dsss_read_1997,
 * dsss_read_front, dsss_find, dsss_why, dsss_compare, dsss_report_add, dsss_report_list, dsss_report_text,
 * dsss_store_write, dsss_store_read and dsss_store_change do. Nothing here is proved; tests compare it with the second
 * program.
 *
 * Compiled with -DPLAIN_AS_DSSS, plain_write.c, plain_choose.c, plain_read.c, plain_find.c, plain_compare.c,
 * plain_report.c and plain_store.c define the calls of dsss.h themselves: a stand-in for the library, to test the tests
 * (host, month, bridge, bench, the second program) without it. */
#ifndef PLAIN_H
#define PLAIN_H

#include "dsss.h"

#ifdef PLAIN_AS_DSSS
#define plain_write dsss_write
#define plain_read_hard dsss_read_hard
#define plain_read_soft dsss_read_soft
#define plain_read_bytes dsss_read_bytes
#define plain_read_1997 dsss_read_1997
#define plain_read_front dsss_read_front
#define plain_find dsss_find
#define plain_why dsss_why
#define plain_compare dsss_compare
#define plain_report_add dsss_report_add
#define plain_report_list dsss_report_list
#define plain_report_text dsss_report_text
#define plain_store_write dsss_store_write
#define plain_store_read dsss_store_read
#define plain_store_change dsss_store_change
#endif

dsss_written plain_write(uint64_t kind, uint64_t rate, uint64_t phase, uint64_t clock,
                         const uint8_t *payload, size_t payload_len, uint8_t *chips, size_t chips_len);
dsss_record plain_read_hard(uint64_t kind, const uint8_t *chips, size_t chips_len, uint8_t *octets,
                            size_t octets_len);
dsss_record plain_read_soft(uint64_t kind, const float *i, size_t i_len, const float *q,
                            size_t q_len, uint8_t *octets, size_t octets_len);
dsss_record plain_read_bytes(uint64_t kind, const int8_t *bytes, size_t bytes_len, uint8_t *octets,
                             size_t octets_len);
dsss_record plain_read_1997(const uint8_t *chips, size_t chips_len, uint8_t *octets, size_t octets_len);
dsss_coming plain_read_front(uint64_t kind, const uint8_t *chips, size_t chips_len);
dsss_found plain_find(uint64_t kind, const uint8_t *chips, size_t chips_len, uint64_t offsets);
dsss_reason plain_why(uint64_t kind, const uint8_t *chips, size_t chips_len, uint64_t room);
dsss_compared plain_compare(uint64_t kind, const uint8_t *a, size_t a_len, const uint8_t *b, size_t b_len,
                            uint64_t *chip_row, size_t chip_row_len, uint64_t *octet_row, size_t octet_row_len,
                            uint8_t *octets_a, size_t octets_a_len, uint8_t *octets_b, size_t octets_b_len);
dsss_counted plain_report_add(dsss_report report, uint64_t kind, const uint8_t *chips, size_t chips_len);
dsss_counted plain_report_list(const uint64_t *kinds, size_t kinds_len, const dsss_chips *list, size_t list_len);
dsss_text plain_report_text(dsss_report report, uint8_t *text, size_t text_len);
uint64_t plain_store_write(uint64_t kind, uint64_t rate, uint64_t phase, uint8_t *store, size_t store_len);
dsss_settings plain_store_read(const uint8_t *store, size_t store_len);
uint64_t plain_store_change(uint8_t *store, size_t store_len, uint64_t tag, uint64_t value);

/* The counts of a row of usable samples, as far as both rows go: 1024 times each, nearest, halves
 * to even. */
void plain_count(const float *samples, size_t samples_len, int32_t *counts, size_t counts_len);

/* The number of the word chosen for the first symbol of rows of usable samples; of equal scores the
 * smallest. 0 of a rate that is none, and of rows shorter than a symbol. */
uint64_t plain_decide(uint64_t rate, const float *i, size_t i_len, const float *q, size_t q_len);

/* The number of the word that the last of the first 64 symbols of 11 Mbit/s of a recording is decided as. Recorder 0 is
 * hard (octets), 1 soft (i and q), 2 bytes; a recorder looks at its own rows only. 0 of another recorder, of fewer than
 * 512 chips, and where one of these is unusable. */
uint64_t plain_eleven(uint64_t recorder, const uint8_t *octets, size_t octets_len, const int8_t *bytes,
                      size_t bytes_len, const float *i, size_t i_len, const float *q, size_t q_len);

#endif
