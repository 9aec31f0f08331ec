/* recordings.h: what bench.c and count.c look for a front in, a front that is refused, and a report that they add to
 * and spell out. */
#ifndef RECORDINGS_H
#define RECORDINGS_H

#include "plain.h"

#include <string.h>

enum { IN_NOISE, IN_LOST, IN_LAST, IN_UNUSABLE, IN_SFDS, RECORDINGS };

enum { UNUSABLE = 200, EACH = 500 }; /* an octet that is no chip, and how often it comes */

/* Random phases; lost chips, as silence is recorded; random phases and a frame at the last offset; random phases with
 * unusable chips in them; one SFD after the other, which has most fronts read. */
static const char *const recordings[RECORDINGS] = {"noise", "lost", "last", "unusable", "sfds"};

enum { SFDS = 256 }; /* octets of SFDs, more than any recording here has room for */

/* SFDs of a kind, one after the other, as the payload of a frame at 1 Mbit/s: scrambled in one run, and no front. */
static inline void lay_sfds(uint64_t kind, size_t len, uint8_t *chips)
{
    uint8_t payload[SFDS];

    for (size_t k = 0; k < SFDS; k += 2) {
        payload[k] = kind == DSSS_LONG ? 0xA0 : 0xCF;
        payload[k + 1] = kind == DSSS_LONG ? 0xF3 : 0x05;
    }
    plain_write(DSSS_LONG, DSSS_RATE_1, 0, 0, payload, SFDS, chips, DSSS_FRAME_CHIPS(DSSS_LONG, DSSS_RATE_1, SFDS));
    memmove(chips, chips + DSSS_FRONT_LONG, len);
}

/* Lays a recording out that has a whole front's chips at each of so many offsets and no chip more, but for the payload
 * of a frame, and answers its chips. There is room for them. */
static inline size_t lay_recording(size_t which, uint64_t kind, size_t offsets, uint8_t *chips)
{
    const uint8_t payload[1] = {0xA5};
    size_t last = offsets - 1, len = last + DSSS_FRAME_CHIPS(kind, DSSS_RATE_2, which == IN_LAST ? sizeof payload : 0);
    uint32_t state = 2463534242u; /* of an xorshift */

    for (size_t k = 0; k < len; k++) {
        state ^= state << 13;
        state ^= state >> 17;
        state ^= state << 5;
        chips[k] = which == IN_LOST ? DSSS_CHIP_LOST : state >> 8 & 3;
        if (which == IN_UNUSABLE && k % EACH == 0)
            chips[k] = UNUSABLE;
    }
    if (which == IN_SFDS)
        lay_sfds(kind, len, chips);
    if (which == IN_LAST)
        plain_write(kind, DSSS_RATE_2, 0, 0, payload, sizeof payload, chips + last, len - last);
    return len;
}

/* Spoils the CRC of a frame: the front's last symbol, which has its last bit, is turned by half. */
static inline void spoil_crc(uint64_t kind, uint8_t *chips)
{
    uint8_t *end = chips + (kind == DSSS_LONG ? DSSS_FRONT_LONG : DSSS_FRONT_SHORT);

    for (uint8_t *chip = end - 11; chip < end; chip++)
        *chip ^= 2;
}

/* A report of a busy month that takes one recording more: every refusal that can come has come. */
static const dsss_report month = {
    .seen = 999,
    .frames = {86, 132, 245, 391},
    .octets = {12900, 66000, 367500, 586500},
    .refused = {[1] = 2, [8] = 12, [9] = 31, [10] = 24, [11] = 17, [12] = 26, [13] = 5, [14] = 3, [15] = 4, [16] = 21},
    .airtime = 1492815,
    .some = 1,
    .lead = 1024,
    .recording = 417,
};

/* Whether a find answers what it must: the frame at the last offset, or up to 10 chips before it, or 19. */
static inline int finds_right(size_t which, size_t offsets, dsss_found found)
{
    if (which != IN_LAST)
        return found.number == DSSS_REFUSED_NO_START;
    return found.number == 0 && found.offset < offsets && found.offset + 10 >= offsets - 1 && found.n == 1;
}

#endif
