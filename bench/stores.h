/* stores.h: what bench.c and count.c read, change and write of a store. */
#ifndef STORES_H
#define STORES_H

#include "plain.h"

#include <string.h>

enum { STORE_READ, STORE_LONGEST, STORE_REFUSED, STORE_CHANGE, STORE_WRITE, STORES };

/* A read of a store as it is written; of the longest that is read, 16 entries; of the largest of all, which is refused
 * for its settings' bodies; a change, and a write. */
static const struct {
    const char *name;
    uint64_t number;
} stores[STORES] = {{"read", 0}, {"longest", 0}, {"refused", DSSS_REFUSED_BODY}, {"change", 0}, {"write", 0}};

enum { FULL_ENTRIES = 16, FULL_BODY = 255 };

/* A store of 16 entries, tags 1 to 16, with bodies of 255 octets; those of the settings have so many. Its octets. */
static inline size_t lay_full_store(size_t of_setting, uint8_t *store)
{
    const uint8_t settings[3] = {DSSS_LONG, DSSS_RATE_11, 3};
    size_t at = 2 + 4 * FULL_ENTRIES;

    memset(store, 0, DSSS_STORE_MAX);
    memcpy(store + at, settings, sizeof settings);
    store[1] = FULL_ENTRIES;
    for (size_t k = 0; k < FULL_ENTRIES; k++) {
        size_t len = k < sizeof settings ? of_setting : FULL_BODY;
        const uint8_t entry[4] = {(uint8_t)(k + 1), (uint8_t)at, (uint8_t)(at >> 8), (uint8_t)len};
        memcpy(store + 2 + 4 * k, entry, sizeof entry);
        at += len;
    }
    return at;
}

/* Lays the store of a call out and answers its octets. There is room for DSSS_STORE_MAX. */
static inline size_t lay_store(size_t which, uint8_t *store)
{
    if (which == STORE_LONGEST || which == STORE_REFUSED)
        return lay_full_store(which == STORE_LONGEST ? 1 : FULL_BODY, store);
    plain_store_write(DSSS_LONG, DSSS_RATE_11, 3, store, DSSS_STORE_OCTETS);
    return DSSS_STORE_OCTETS;
}

#endif
