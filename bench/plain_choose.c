/* plain_choose.c: choosing symbols in plain C, with their leads, as a good C engineer would by hand.
 *
 * Symbols are chosen sixteen side by side, in the numbers that suit a recorder: full chips of hard recordings fit in
 * octets, sums of bytes in 16 bits, and counts of soft samples are whole numbers below 2^24, which floats hold as they
 * are. Whatever the numbers, all scores of a symbol have one factor, and the choice is the same; leads are brought to
 * counts where they are noted. The loops have nothing but sums, larger and smaller in them, so that compilers do many
 * symbols at once; some want -fno-trapping-math for those of floats. */
#include "plain_choose.h"

#include <math.h>
#include <string.h>

enum { LANES = 16 }; /* symbols side by side */

/* ---- Unusable chips -------------------------------------------------------------------------- */

/* False for a NaN too. */
static inline int usable(float sample)
{
    return fabsf(sample) <= 8.0f;
}

enum { BLOCK = 64 }; /* chips looked at together for one that is unusable */

static size_t first_unusable_hard(const uint8_t *chips, size_t from, size_t to)
{
    size_t k = from;

    for (uint8_t bad = 0; k + BLOCK <= to; k += BLOCK) {
        for (unsigned j = 0; j < BLOCK; j++)
            bad |= chips[k + j] > DSSS_CHIP_LOST;
        if (bad)
            break;
    }
    while (k < to && chips[k] <= DSSS_CHIP_LOST)
        k++;
    return k;
}

static size_t first_unusable_soft(const float *i, const float *q, size_t from, size_t to)
{
    size_t k = from;

    for (int good = 1; k + BLOCK <= to; k += BLOCK) {
        for (unsigned j = 0; j < BLOCK; j++)
            good &= usable(i[k + j]) & usable(q[k + j]);
        if (!good)
            break;
    }
    while (k < to && usable(i[k]) && usable(q[k]))
        k++;
    return k;
}

/* Every byte is usable. */
size_t plain_first_unusable(const struct recording *r, size_t from, size_t to)
{
    if (r->bytes)
        return to;
    return r->i ? first_unusable_soft(r->i, r->q, from, to) : first_unusable_hard(r->chips, from, to);
}

/* ---- The choice, for each recorder's numbers ------------------------------------------------- */

/* As unsigned numbers the smaller of a and -a is the size. No sum of a symbol's full chips is above 11. */
static inline uint8_t size8(int8_t a)
{
    uint8_t x = (uint8_t)a, y = (uint8_t)-a;

    return x < y ? x : y;
}

/* No sum of a symbol's bytes is above 11 * 128. */
static inline int16_t size16(int16_t a)
{
    int16_t minus = (int16_t)-a;

    return a > minus ? a : minus;
}

#define NAME(x) x##_hard
#define NUMBER int8_t
#define KEY uint8_t
#define LEAD uint8_t
#define MOST UINT8_MAX
#define SIZE(a) size8(a)
#include "plain_lanes.h"

#define NAME(x) x##_soft
#define NUMBER float
#define KEY float
#define LEAD int32_t
#define MOST INT32_MAX
#define SIZE(a) fabsf(a)
#include "plain_lanes.h"

#define NAME(x) x##_bytes
#define NUMBER int16_t
#define KEY int16_t
#define LEAD int16_t
#define MOST INT16_MAX
#define SIZE(a) size16(a)
#include "plain_lanes.h"

/* ---- Symbols side by side -------------------------------------------------------------------- */

/* The two halves of a row of octets in turn: the first octet of each, the second of each, and so on. */
static inline void merge(const int8_t *restrict bytes, unsigned half, int8_t *restrict to)
{
    for (unsigned k = 0; k < half; k++) {
        to[2 * k] = bytes[k];
        to[2 * k + 1] = bytes[half + k];
    }
}

/* The octets of sixteen symbols, `each` a symbol, side by side: the first of every symbol, then the second of every
 * symbol, and so on. Merged once, a symbol stands beside the one eight further on; four times, beside the next. Zeros
 * stand for symbols that are not there. */
static inline void side_by_side(const int8_t *bytes, size_t symbols, unsigned each, int8_t *to)
{
    int8_t padded[LANES * 2 * BARKER], merged[LANES * 2 * BARKER];

    if (symbols < LANES) {
        memcpy(padded, bytes, symbols * each);
        memset(padded + symbols * each, 0, (LANES - symbols) * each);
        bytes = padded;
    }
    merge(bytes, LANES / 2 * each, merged);
    merge(merged, LANES / 2 * each, to);
    merge(to, LANES / 2 * each, merged);
    merge(merged, LANES / 2 * each, to);
}

/* The sum of a symbol with Barker's signs, + - + + - + + + - - -, from rows of chips that are `step` apart. */
static inline int barker_sum(int8_t (*x)[LANES], unsigned step, unsigned s)
{
    return x[0][s] - x[step][s] + x[2 * step][s] + x[3 * step][s] - x[4 * step][s] + x[5 * step][s] + x[6 * step][s]
           + x[7 * step][s] - x[8 * step][s] - x[9 * step][s] - x[10 * step][s];
}

/* 4 times a CCK chip, the half turn of chips 3 and 6 taken back. */
static inline int8_t times(unsigned chip)
{
    return chip == 3 || chip == 6 ? -4 : 4;
}

/* ---- Hard chips ------------------------------------------------------------------------------ */

/* I and Q of `count` rows of chips, in full chips. */
static inline void full_chips(int8_t (*restrict x)[LANES], unsigned count, int8_t (*restrict i)[LANES],
                              int8_t (*restrict q)[LANES])
{
    for (unsigned k = 0; k < count; k++)
        for (unsigned s = 0; s < LANES; s++) {
            i[k][s] = (int8_t)((x[k][s] == 0) - (x[k][s] == 2));
            q[k][s] = (int8_t)((x[k][s] == 1) - (x[k][s] == 3));
        }
}

static inline void barkers_of_chips(const uint8_t *chips, size_t symbols, uint8_t *words, uint8_t *leads)
{
    int8_t x[BARKER][LANES], i[BARKER][LANES], q[BARKER][LANES];
    row_hard a, b;

    side_by_side((const int8_t *)chips, symbols, BARKER, x[0]);
    full_chips(x, BARKER, i, q);
    for (unsigned s = 0; s < LANES; s++) {
        a[s] = (int8_t)(4 * barker_sum(i, 1, s) + 1);
        b[s] = (int8_t)(4 * barker_sum(q, 1, s) + 1);
    }
    barkers_hard(a, b, words, leads);
}

static inline void rows_of_chips(const uint8_t *chips, size_t symbols, row_hard *restrict i, row_hard *restrict q)
{
    int8_t x[CCK][LANES];

    side_by_side((const int8_t *)chips, symbols, CCK, x[0]);
    for (unsigned s = 0; s < LANES; s++)
        for (unsigned k = 0; k < CCK; k++) {
            i[k][s] = (int8_t)(times(k) * ((x[k][s] == 0) - (x[k][s] == 2)) + (k == 7));
            q[k][s] = (int8_t)(times(k) * ((x[k][s] == 1) - (x[k][s] == 3)) + (k == 7));
        }
}

static void choose_hard(const uint8_t *chips, const struct rate *rate, size_t symbols, uint8_t *words,
                        struct least *least)
{
    uint8_t leads[MANY];
    row_hard i[CCK], q[CCK];

    for (size_t s = 0; s < symbols; s += LANES) {
        if (rate->symbol == BARKER) {
            barkers_of_chips(chips + BARKER * s, symbols - s, words + s, leads + s);
            continue;
        }
        rows_of_chips(chips + CCK * s, symbols - s, i, q);
        if (rate->code == DSSS_RATE_5_5)
            fives_hard(i, q, words + s, leads + s);
        else
            elevens_hard(i, q, words + s, leads + s);
    }
    note_hard(least, leads, symbols, DSSS_FULL_CHIP);
}

/* ---- Soft chips ------------------------------------------------------------------------------ */

/* The samples of sixteen symbols, `each` a symbol: where they are, or in `room` with zeros for symbols that are not
 * there. */
static inline const float *sixteen(const float *samples, size_t symbols, unsigned each, float *room)
{
    if (symbols >= LANES)
        return samples;
    memcpy(room, samples, symbols * each * sizeof room[0]);
    memset(room + symbols * each, 0, (LANES - symbols) * each * sizeof room[0]);
    return room;
}

/* Barker's signs for chips 0 to 3, 4 to 7 and 7 to 10, in which chip 7 is left out: four chips are summed at once. */
static const float signs[3][4] = {{1, -1, 1, 1}, {-1, 1, 1, 1}, {0, -1, -1, -1}};

/* 4 times the sums of up to sixteen Barker symbols, and 1 more. A count is negated with its sample. */
static inline void sums_of_samples(const float *samples, size_t symbols, float *restrict sums)
{
    float room[LANES * BARKER], part[LANES][4];

    samples = sixteen(samples, symbols, BARKER, room);
    for (unsigned s = 0; s < LANES; s++)
        for (unsigned k = 0; k < 4; k++)
            part[s][k] = plain_count_of(signs[0][k] * samples[BARKER * s + k])
                         + plain_count_of(signs[1][k] * samples[BARKER * s + k + 4])
                         + plain_count_of(signs[2][k] * samples[BARKER * s + k + 7]);
    for (unsigned s = 0; s < LANES; s++)
        sums[s] = 4 * (part[s][0] + part[s][1] + part[s][2] + part[s][3]) + 1;
}

static inline void rows_of_samples(const float *samples, size_t symbols, row_soft *restrict to)
{
    float room[LANES * CCK];

    samples = sixteen(samples, symbols, CCK, room);
    for (unsigned s = 0; s < LANES; s++)
        for (unsigned k = 0; k < CCK; k++)
            to[k][s] = (float)times(k) * plain_count_of(samples[CCK * s + k]) + (k == 7 ? 1.0f : 0.0f);
}

static void choose_soft(const float *is, const float *qs, const struct rate *rate, size_t symbols, uint8_t *words,
                        struct least *least)
{
    int32_t leads[MANY];
    row_soft i[CCK], q[CCK];

    for (size_t s = 0; s < symbols; s += LANES) {
        if (rate->symbol == BARKER) {
            sums_of_samples(is + BARKER * s, symbols - s, i[0]);
            sums_of_samples(qs + BARKER * s, symbols - s, q[0]);
            barkers_soft(i[0], q[0], words + s, leads + s);
            continue;
        }
        rows_of_samples(is + CCK * s, symbols - s, i);
        rows_of_samples(qs + CCK * s, symbols - s, q);
        if (rate->code == DSSS_RATE_5_5)
            fives_soft(i, q, words + s, leads + s);
        else
            elevens_soft(i, q, words + s, leads + s);
    }
    note_soft(least, leads, symbols, 1);
}

/* ---- Bytes ----------------------------------------------------------------------------------- */

static inline void barkers_of_bytes(const int8_t *bytes, size_t symbols, uint8_t *words, int16_t *leads)
{
    int8_t x[2 * BARKER][LANES];
    row_bytes a, b;

    side_by_side(bytes, symbols, 2 * BARKER, x[0]);
    for (unsigned s = 0; s < LANES; s++) {
        a[s] = (int16_t)(4 * barker_sum(x, 2, s) + 1);
        b[s] = (int16_t)(4 * barker_sum(x + 1, 2, s) + 1);
    }
    barkers_bytes(a, b, words, leads);
}

static inline void rows_of_bytes(const int8_t *bytes, size_t symbols, row_bytes *restrict i, row_bytes *restrict q)
{
    int8_t x[2 * CCK][LANES];

    side_by_side(bytes, symbols, 2 * CCK, x[0]);
    for (unsigned s = 0; s < LANES; s++)
        for (unsigned k = 0; k < CCK; k++) {
            i[k][s] = (int16_t)(times(k) * x[2 * k][s] + (k == 7));
            q[k][s] = (int16_t)(times(k) * x[2 * k + 1][s] + (k == 7));
        }
}

static void choose_bytes(const int8_t *bytes, const struct rate *rate, size_t symbols, uint8_t *words,
                         struct least *least)
{
    int16_t leads[MANY];
    row_bytes i[CCK], q[CCK];

    for (size_t s = 0; s < symbols; s += LANES) {
        if (rate->symbol == BARKER) {
            barkers_of_bytes(bytes + 2 * BARKER * s, symbols - s, words + s, leads + s);
            continue;
        }
        rows_of_bytes(bytes + 2 * CCK * s, symbols - s, i, q);
        if (rate->code == DSSS_RATE_5_5)
            fives_bytes(i, q, words + s, leads + s);
        else
            elevens_bytes(i, q, words + s, leads + s);
    }
    note_bytes(least, leads, symbols, DSSS_FULL_CHIP / 64);
}

void plain_choose(const struct recording *r, const struct rate *rate, size_t at, size_t symbols, uint8_t *words,
                  struct least *least)
{
    if (r->bytes)
        choose_bytes(r->bytes + 2 * at, rate, symbols, words, least);
    else if (r->i)
        choose_soft(r->i + at, r->q + at, rate, symbols, words, least);
    else
        choose_hard(r->chips + at, rate, symbols, words, least);
}
