/* plain_frame.h: the frame in plain C, its tables and steps, for the files of plain C alone.
 *
 * A row of bits is a number here, the first bit in time being the lowest. */
#ifndef PLAIN_FRAME_H
#define PLAIN_FRAME_H

#include "plain.h"

enum { BARKER = 11, CCK = 8 }; /* chips a symbol */

/* ---- Tables ---------------------------------------------------------------------------------- */

struct kind {
    unsigned sync_bits, sync_octet; /* 1 Mbit/s, as is the SFD */
    unsigned sfd;
    unsigned header_each; /* header bits a symbol */
    unsigned start;       /* the scrambler's history, as in struct writer */
    size_t front;         /* chips */
};

static const struct kind kinds[] = {
    [DSSS_LONG] = {128, 0xFF, 0xF3A0, 1, 0x6C, DSSS_FRONT_LONG},
    [DSSS_SHORT] = {56, 0x00, 0x05CF, 2, 0x1B, DSSS_FRONT_SHORT},
};

struct rate {
    unsigned code;
    unsigned each;   /* bits a symbol */
    unsigned symbol; /* chips a symbol */
};

static const struct rate rates[] = {
    {DSSS_RATE_1, 1, BARKER},
    {DSSS_RATE_2, 2, BARKER},
    {DSSS_RATE_5_5, 4, CCK},
    {DSSS_RATE_11, 8, CCK},
};

/* The words allowed: all at 11 Mbit/s; at 5.5 Mbit/s p2 = 1, 3 and p4 = 0, 2, by d2 and d3. */
static const uint8_t words_55[4] = {16 * 1 + 0, 16 * 1 + 2, 16 * 3 + 0, 16 * 3 + 2};

/* Two bits, and the growth they make: 00 is 0, 01 is 1, 11 is 2, 10 is 3, first bit lowest. */
static const uint8_t growth_of[4] = {0, 3, 1, 2};

/* Two bits, and the phase they are for p2 to p4: 01 is 1, 10 is 2, first bit lowest. Its own inverse. */
static const uint8_t direct[4] = {0, 2, 1, 3};

/* ---- The frame ------------------------------------------------------------------------------- */

static inline const struct rate *rate_of(uint64_t code)
{
    for (size_t k = 0; k < sizeof rates / sizeof rates[0]; k++)
        if (rates[k].code == code)
            return &rates[k];
    return NULL;
}

static inline size_t frame_chips(const struct kind *kind, const struct rate *rate, size_t n)
{
    return kind->front + n * (8 / rate->each * rate->symbol);
}

/* SERVICE (low octet) and LENGTH of n octets and a clock bit, as the header has them from its bit 8 on. */
static inline uint32_t service_length(const struct rate *rate, uint32_t n, uint32_t clock)
{
    uint32_t length, bit7 = 0;

    switch (rate->code) {
    case DSSS_RATE_1:
        length = 8 * n;
        break;
    case DSSS_RATE_2:
        length = 4 * n;
        break;
    case DSSS_RATE_5_5:
        length = (16 * n + 10) / 11;
        break;
    default:
        length = (8 * n + 10) / 11;
        bit7 = 11 * length - 8 * n >= 8;
    }
    return length << 8 | bit7 << 7 | clock << 2;
}

/* Octets that LENGTH and bit 7 stand for; -1 for LENGTH 0 with bit 7. */
static inline int32_t octets_of(const struct rate *rate, uint32_t length, uint32_t bit7)
{
    switch (rate->code) {
    case DSSS_RATE_1:
        return (int32_t)(length / 8);
    case DSSS_RATE_2:
        return (int32_t)(length / 4);
    case DSSS_RATE_5_5:
        return (int32_t)(length * 11 / 16);
    default:
        return (int32_t)(length * 11 / 8) - (int32_t)bit7;
    }
}

/* The CRC of the 32 header bits, its first sent bit (the highest term) being the lowest. */
static inline uint32_t crc_of(uint32_t header)
{
    uint32_t crc = 0xFFFF;

    for (unsigned k = 0; k < 32; k++) {
        uint32_t bit = (crc ^ header >> k) & 1;
        crc = crc >> 1 ^ (bit ? 0x8408 : 0);
    }
    return crc ^ 0xFFFF;
}

#endif
