/* pairs.h: the second recordings that bench.c and count.c compare a frame with. */
#ifndef PAIRS_H
#define PAIRS_H

#include "plain.h"

#include <string.h>

enum { PAIR_EQUAL, PAIR_FEW, PAIR_ALL, PAIRS };

enum { FEW = 1000 }; /* one chip in so many differs */

/* The same chips; one chip in 1,000 turned by a quarter, which a read stands; every chip turned by half, which a read
 * does not see, so that both are accepted and the octets are alike. */
static const char *const second_recordings[PAIRS] = {"equal", "few", "all"};

/* Lays out the second recording beside a frame; how many chips differ. */
static inline size_t lay_second(size_t which, const uint8_t *chips, size_t len, uint8_t *second)
{
    memcpy(second, chips, len);
    if (which == PAIR_EQUAL)
        return 0;
    if (which == PAIR_ALL) {
        for (size_t k = 0; k < len; k++)
            second[k] ^= 2;
        return len;
    }
    for (size_t k = FEW / 2; k < len; k += FEW)
        second[k] = (second[k] + 1) % 4;
    return (len + FEW - 1 - FEW / 2) / FEW;
}

#endif
