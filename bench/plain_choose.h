/* plain_choose.h: symbols chosen in plain C: what plain_choose.c does for plain_read.c. */
#ifndef PLAIN_CHOOSE_H
#define PLAIN_CHOOSE_H

#include "plain_frame.h"

struct recording {
    const uint8_t *chips; /* hard, or */
    const float *i, *q;   /* soft if i is there, or */
    const int8_t *bytes;  /* signed bytes, I and Q in turn, if they are there */
    size_t len;           /* in chips */
};

/* The smallest lead so far. */
struct least {
    uint64_t lead;   /* in counts */
    uint64_t symbol; /* the first that has it */
    uint64_t next;   /* the number of the next symbol */
};

enum { MANY = 64 }; /* symbols chosen at a time, at most */

/* The first unusable chip from `from` on; `to` if there is none before it. */
size_t plain_first_unusable(const struct recording *r, size_t from, size_t to);

/* The words of up to 64 symbols of a rate that start at the chip `at`, all usable, and the smallest of their leads
 * noted if it is below all before. There is room for 64 words. */
void plain_choose(const struct recording *r, const struct rate *rate, size_t at, size_t symbols, uint8_t *words,
                  struct least *least);

/* The count of a usable sample: 1024 times it, nearest, halves to even. It is rounded as lrintf would: the product is
 * exact, and in a sum near 1.5 * 2^23 a float's last place is 1, so that the addition itself rounds. */
static inline float plain_count_of(float sample)
{
    const float near = 12582912.0f;

    return sample * 1024.0f + near - near;
}

#endif
