/* plain_find.c: finding where a frame starts in plain C, after docs/RULES.md, as a good C engineer would by hand.
 *
 * A front is read only at an offset where its SFD is right, and the SFD is looked for at all offsets side by side: at
 * each chip a symbol is decided once, whatever offsets it serves, and only as far as an SFD asks. In a front that is
 * accepted all growths at 1 Mbit/s are even, and an even growth is bit 1 exactly where it leads from phases 0 and 1 to
 * phases 2 and 3 or back. With sums a of I and b of Q the phases 0 to 3 score a, b, -a and -b: one of the last two
 * wins, by the rule for equal scores too, exactly when a + b is below 0. So one sum of eleven small numbers is all that
 * is asked of a symbol. Where a growth is odd the bits may be right by chance; the front is refused then.
 *
 * An SFD does not overlap itself, so that at most one offset in sixteen has its front read, whatever is recorded.
 *
 * The loops go over chips one beside the other, with nothing but sums and comparisons of octets in them, so that
 * compilers do sixteen at once. No allocation, no intrinsics, nothing written for one processor. Nothing here is
 * proved. */
#include "plain_frame.h"

#include <string.h>

enum { LANES = 16, WINDOW = 256 }; /* chips side by side; chips, and offsets, at a time */

/* What is known at each chip of a window. An octet has a bit of the symbol that begins there, its lowest, and of those
 * two, four and so on up to fourteen symbols before: an SFD is two such octets, a symbol apart, and no octet is made of
 * one less than sixteen chips before it. These rows begin with the end of the window before. */
struct window {
    int8_t sides[WINDOW + LANES];        /* I + Q of the chip, in full chips */
    int8_t pairs[WINDOW + LANES / 2];    /* less that of the chip two further on */
    uint8_t halves[2 * BARKER + WINDOW]; /* bits: whether the phase is 2 or 3 */
    uint8_t grown[7 * BARKER + WINDOW];  /* bits as they were sent, scrambled */
    uint8_t bits[BARKER + WINDOW];       /* bits unscrambled */
    uint8_t wrong[WINDOW];               /* 0 if an SFD ends with the symbol that begins there */
};

/* A chip that is lost or unusable counts as nothing. */
static inline void take_sides(struct window *restrict w, const uint8_t *restrict chips)
{
    for (unsigned k = 0; k < WINDOW + LANES; k++)
        w->sides[k] = (int8_t)(chips[k] > 3 ? 0 : 1 - (chips[k] & 2));
}

static inline void take_pairs(struct window *w)
{
    for (unsigned k = 0; k < WINDOW + LANES / 2; k++)
        w->pairs[k] = (int8_t)(w->sides[k] - w->sides[k + 2]);
}

/* Barker's signs, + - + + - + + + - - -: pairs are chips 1 and 3, 4 and 6, 7 and 9. No row is looked at in two places
 * that stand beside each other: compilers would keep one for the next turn, and do one turn at a time. */
static inline void decide_sixteen(const int8_t *restrict side, const int8_t *restrict pair,
                                  const uint8_t *restrict before, uint8_t *restrict now)
{
    for (unsigned k = 0; k < LANES; k++) {
        int8_t sum = (int8_t)(side[k] - pair[k + 1] + side[k + 2] - pair[k + 4] + side[k + 5] + pair[k + 7]
                              - side[k + 8] - side[k + 10]);
        now[k] = (uint8_t)(2 * before[k] + (sum < 0));
    }
}

static inline void decide(struct window *w)
{
    for (unsigned k = 0; k < WINDOW; k += LANES)
        decide_sixteen(w->sides + k, w->pairs + k, w->halves + k, w->halves + 2 * BARKER + k);
}

static inline void grow(struct window *w)
{
    for (unsigned k = 0; k < WINDOW; k++)
        w->grown[7 * BARKER + k] = w->halves[2 * BARKER + k] ^ w->halves[BARKER + k];
}

/* A bit goes with those 4 and 7 symbols before it. */
static inline void unscramble(struct window *w)
{
    for (unsigned k = 0; k < WINDOW; k++)
        w->bits[BARKER + k] = w->grown[7 * BARKER + k] ^ w->grown[3 * BARKER + k] ^ w->grown[k];
}

static inline void compare(struct window *w, uint8_t last, uint8_t before)
{
    for (unsigned k = 0; k < WINDOW; k++)
        w->wrong[k] = (w->bits[BARKER + k] ^ last) | (w->bits[k] ^ before);
}

/* Rows begin with what was their end. */
static inline void move_on(struct window *w)
{
    memcpy(w->halves, w->halves + WINDOW, 2 * BARKER);
    memcpy(w->grown, w->grown + WINDOW, 7 * BARKER);
    memcpy(w->bits, w->bits + WINDOW, BARKER);
}

/* Every second bit of an SFD, down from `last`, in the order of a window's octets. */
static inline uint8_t octet_of(unsigned sfd, unsigned last)
{
    unsigned octet = 0;

    for (unsigned k = 0; k < 8; k++)
        octet |= (sfd >> (last - 2 * k) & 1) << k;
    return (uint8_t)octet;
}

/* All that is known of the next window, which begins with the first of these chips, but for the SFD. */
static void pass(struct window *w, const uint8_t *chips)
{
    move_on(w);
    take_sides(w, chips);
    take_pairs(w);
    decide(w);
    grow(w);
    unscramble(w);
}

static dsss_found not_found(uint64_t number)
{
    dsss_found found = {number, 0, 0, 0, 0, 0};

    return found;
}

/* The first front that is accepted, of those at up to a window's offsets from `at` on, or 19. The recording is said to
 * hold the longest frame, so that 16 is not met: no chip behind a front is looked at. */
static dsss_found read_fronts(uint64_t kind, const uint8_t *chips, const uint8_t *wrong, size_t at, size_t offsets)
{
    const uint8_t *end = wrong + (offsets < WINDOW ? offsets : WINDOW);

    for (const uint8_t *next = wrong; (next = memchr(next, 0, (size_t)(end - next))) != NULL; next++) {
        size_t offset = at + (size_t)(next - wrong);
        dsss_coming told = plain_read_front(kind, chips + offset, DSSS_CHIPS_MAX);
        dsss_found found = {0, offset, told.rate, told.length, told.clock, told.n};
        if (told.number == 0)
            return found;
    }
    return not_found(DSSS_REFUSED_NO_START);
}

/* The first of so many offsets, each of which has a whole front. A window stands where the SFDs of its offsets have
 * their last symbols; their bits hang on the 23 symbols before, which are less than a window. The last window may end
 * behind the last SFD, but not behind the header. */
static dsss_found find(uint64_t kind, const uint8_t *chips, size_t offsets)
{
    const uint8_t last = octet_of(kinds[kind].sfd, 15), before = octet_of(kinds[kind].sfd, 14);
    const uint8_t *ends = chips + (kinds[kind].sync_bits + 15) * BARKER;
    dsss_found found = not_found(DSSS_REFUSED_NO_START);
    struct window w;

    memset(&w, 0, sizeof w);
    pass(&w, ends - WINDOW);
    for (size_t at = 0; at < offsets && found.number != 0; at += WINDOW) {
        pass(&w, ends + at);
        compare(&w, last, before);
        found = read_fronts(kind, chips, w.wrong, at, offsets - at);
    }
    return found;
}

dsss_found plain_find(uint64_t kind, const uint8_t *chips, size_t chips_len, uint64_t offsets)
{
    if (kind > DSSS_SHORT)
        return not_found(DSSS_REFUSED_KIND);
    if (offsets < 1 || offsets > DSSS_OFFSETS_MAX)
        return not_found(DSSS_REFUSED_OFFSETS);
    if (chips_len < kinds[kind].front)
        return not_found(DSSS_REFUSED_NO_START);
    size_t whole = chips_len - kinds[kind].front + 1; /* offsets that have a whole front */
    return find(kind, chips, offsets < whole ? (size_t)offsets : whole);
}
