/* plain_store.c: the store of a table's radio settings in plain C, after docs/RULES.md, as a good C engineer would by
 * hand.
 *
 * The table of contents is walked once for each question that the rules ask of the whole store; bodies are looked at
 * only where they are settings. No allocation, nothing written for one processor. Nothing here is proved. */
#include "plain_frame.h"

#include <string.h>

/* ---- The store's octets ---------------------------------------------------------------------- */

enum { HEAD = 2, ENTRY = 4, ENTRIES_MOST = 16 }; /* octets before the table, of an entry; entries */
enum { SETTINGS = 3, UNKNOWN_MOST = 127 };       /* tags 1 to 3; the last tag that a reader may pass over */

/* A store looked at: the number of a read, and the three settings with the places of their bodies, by tag - 1. */
struct looked {
    uint64_t number;
    uint64_t values[SETTINGS];
    size_t at[SETTINGS];
};

static inline size_t offset_of(const uint8_t *entry)
{
    return (size_t)entry[1] | (size_t)entry[2] << 8;
}

static int tags_rise(const uint8_t *table, size_t entries)
{
    for (size_t k = 1; k < entries; k++)
        if (table[ENTRY * k] <= table[ENTRY * (k - 1)])
            return 0;
    return 1;
}

/* Whether each body begins where the one before it ends, the first right behind the table, and the last one ends where
 * the store does. */
static int laid_out(const uint8_t *table, size_t entries, size_t len)
{
    size_t at = HEAD + ENTRY * entries;

    for (size_t k = 0; k < entries; k++) {
        if (offset_of(table + ENTRY * k) != at)
            return 0;
        at += table[ENTRY * k + 3];
    }
    return at == len;
}

/* The entries of tags 1 to 3, and how many of them there are. */
static size_t find_settings(const uint8_t *table, size_t entries, const uint8_t *of[SETTINGS])
{
    size_t found = 0;

    for (size_t k = 0; k < entries; k++) {
        const uint8_t *entry = table + ENTRY * k;
        if (entry[0] >= DSSS_TAG_KIND && entry[0] <= DSSS_TAG_PHASE) {
            of[entry[0] - DSSS_TAG_KIND] = entry;
            found++;
        }
    }
    return found;
}

/* What refusals 1, 2, 3 and 5 of a frame's write allow. */
static int allowed(const uint64_t values[SETTINGS])
{
    uint64_t kind = values[0], rate = values[1], phase = values[2];

    return kind <= DSSS_SHORT && rate_of(rate) && !(kind == DSSS_SHORT && rate == DSSS_RATE_1) && phase <= 3;
}

/* ---- Reading --------------------------------------------------------------------------------- */

/* 21 to 24: all that is asked before a tag is looked at by its meaning. */
static uint64_t shape(const uint8_t *store, size_t len)
{
    if (len < HEAD || len < HEAD + ENTRY * (size_t)store[1])
        return DSSS_REFUSED_STORE_CUT;
    size_t entries = store[1];
    if (entries > ENTRIES_MOST)
        return DSSS_REFUSED_ENTRIES;
    if (!tags_rise(store + HEAD, entries))
        return DSSS_REFUSED_TAGS;
    if (!laid_out(store + HEAD, entries, len))
        return DSSS_REFUSED_LAYOUT;
    return 0;
}

/* 25 to 28, of a store in shape. Tags rise, so the last is the largest, and no tag comes twice. */
static uint64_t meaning(const uint8_t *store, struct looked *looked)
{
    const uint8_t *table = store + HEAD, *of[SETTINGS];
    size_t entries = store[1];

    if (entries > 0 && table[ENTRY * (entries - 1)] > UNKNOWN_MOST)
        return DSSS_REFUSED_HIGH_TAG;
    if (find_settings(table, entries, of) < SETTINGS)
        return DSSS_REFUSED_NO_TAG;
    if (of[0][3] != 1 || of[1][3] != 1 || of[2][3] != 1)
        return DSSS_REFUSED_BODY;
    for (size_t k = 0; k < SETTINGS; k++) {
        looked->at[k] = offset_of(of[k]);
        looked->values[k] = store[looked->at[k]];
    }
    return allowed(looked->values) ? 0 : DSSS_REFUSED_SETTINGS;
}

static void look(const uint8_t *store, size_t len, struct looked *looked)
{
    looked->number = shape(store, len);
    if (looked->number == 0)
        looked->number = meaning(store, looked);
}

/* ---- The calls ------------------------------------------------------------------------------- */

uint64_t plain_store_write(uint64_t kind, uint64_t rate, uint64_t phase, uint8_t *store, size_t store_len)
{
    const uint64_t values[SETTINGS] = {kind, rate, phase};
    const uint8_t written[DSSS_STORE_OCTETS] = {
        1, SETTINGS,
        DSSS_TAG_KIND, 14, 0, 1,
        DSSS_TAG_RATE, 15, 0, 1,
        DSSS_TAG_PHASE, 16, 0, 1,
        (uint8_t)kind, (uint8_t)rate, (uint8_t)phase,
    };

    if (store_len > 0)
        memset(store, 0, store_len);
    if (!allowed(values))
        return DSSS_REFUSED_SETTINGS;
    if (store_len < DSSS_STORE_OCTETS)
        return DSSS_REFUSED_STORE_ROOM;
    memcpy(store, written, sizeof written);
    return 0;
}

dsss_settings plain_store_read(const uint8_t *store, size_t store_len)
{
    struct looked looked;
    dsss_settings settings = {0, 0, 0, 0};

    look(store, store_len, &looked);
    settings.number = looked.number;
    if (looked.number == 0) {
        settings.kind = looked.values[0];
        settings.rate = looked.values[1];
        settings.phase = looked.values[2];
    }
    return settings;
}

/* Nothing is written before all is asked. */
uint64_t plain_store_change(uint8_t *store, size_t store_len, uint64_t tag, uint64_t value)
{
    struct looked looked;

    look(store, store_len, &looked);
    if (looked.number != 0)
        return looked.number;
    if (tag < DSSS_TAG_KIND || tag > DSSS_TAG_PHASE)
        return DSSS_REFUSED_CHANGE_TAG;
    looked.values[tag - DSSS_TAG_KIND] = value;
    if (!allowed(looked.values))
        return DSSS_REFUSED_SETTINGS;
    store[looked.at[tag - DSSS_TAG_KIND]] = (uint8_t)value;
    return 0;
}
