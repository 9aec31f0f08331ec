/* bench_leaves.h: leaves of reading that the crate `bench_leaves` exports for bench.c; no part of dsss.h. */
#ifndef BENCH_LEAVES_H
#define BENCH_LEAVES_H

#include <stddef.h>
#include <stdint.h>

/* The counts of a row of samples, as far as both rows go: 1024 times each, nearest, halves to even;
 * 0 of one that is not usable. */
void timed_count(const float *xs, size_t n, int32_t *counts, size_t m);

/* The number of the word that the first symbol of the rows is decided as; 0 of a rate that is none,
 * and of rows shorter than a symbol. */
uint64_t timed_decide(uint64_t rate, const float *i, size_t i_len, const float *q, size_t q_len);

/* The number of the word that the last of the first 64 symbols of 11 Mbit/s of a recording is decided as. Recorder 0 is
 * hard (octets), 1 soft (i and q), 2 bytes; a recorder looks at its own rows only. 0 of another recorder, of fewer than
 * 512 chips, and where one of these is unusable. */
uint64_t timed_eleven(uint64_t recorder, const uint8_t *octets, size_t octets_len, const int8_t *bytes,
                      size_t bytes_len, const float *i, size_t i_len, const float *q, size_t q_len);

#endif
