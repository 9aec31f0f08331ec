/* plain_write.c: writing a frame in plain C, after docs/RULES.md, as a good C engineer would by hand.
 *
 * With the readers it is the measure beside the library in bench.c, so it is meant to be fast where plain C can be:
 * four bits are scrambled at a time, and the eight chips of a word turned together. No allocation, no intrinsics,
 * nothing written for one processor. Nothing here is proved. */
#include "plain_frame.h"

#include <string.h>

/* ---- Words ----------------------------------------------------------------------------------- */

static const uint8_t barker_words[4][BARKER] = {
    {0, 2, 0, 0, 2, 0, 0, 0, 2, 2, 2},
    {1, 3, 1, 1, 3, 1, 1, 1, 3, 3, 3},
    {2, 0, 2, 2, 0, 2, 2, 2, 0, 0, 0},
    {3, 1, 3, 3, 1, 3, 3, 3, 1, 1, 1},
};

/* The CCK words with p1 = 0, by 16 p2 + 4 p3 + p4. */
#define WORD(p2, p3, p4)                                                                 \
    {((p2) + (p3) + (p4)) & 3, ((p3) + (p4)) & 3, ((p2) + (p4)) & 3, ((p4) + 2) & 3,     \
     ((p2) + (p3)) & 3,        (p3),              ((p2) + 2) & 3,    0}
#define WORDS_P4(p2, p3) WORD(p2, p3, 0), WORD(p2, p3, 1), WORD(p2, p3, 2), WORD(p2, p3, 3)
#define WORDS_P3(p2) WORDS_P4(p2, 0), WORDS_P4(p2, 1), WORDS_P4(p2, 2), WORDS_P4(p2, 3)

static const uint8_t cck_words[64][CCK] = {WORDS_P3(0), WORDS_P3(1), WORDS_P3(2), WORDS_P3(3)};

/* ---- Writing --------------------------------------------------------------------------------- */

struct writer {
    uint8_t *at;      /* where the next chip goes */
    unsigned phase;   /* of the last symbol */
    unsigned history; /* the last 7 scrambled bits, the last being the highest */
};

/* Scrambles an octet. The nearest bit that a bit depends on is 4 back: four bits at a time. */
static inline unsigned scramble(struct writer *w, unsigned bits)
{
    unsigned low = (bits ^ w->history >> 3 ^ w->history) & 15;
    unsigned all = w->history | low << 7;
    unsigned high = (bits >> 4 ^ all >> 7 ^ all >> 4) & 15;

    w->history = (all | high << 11) >> 8;
    return low | high << 4;
}

/* Sends an octet as Barker symbols, `each` (1 or 2) bits a symbol. */
static inline void send_barker(struct writer *w, unsigned octet, unsigned each)
{
    unsigned out = scramble(w, octet);

    for (unsigned k = 0; k < 8; k += each) {
        w->phase = (w->phase + (each == 1 ? 2 * (out >> k & 1) : growth_of[out >> k & 3])) & 3;
        memcpy(w->at, barker_words[w->phase], BARKER);
        w->at += BARKER;
    }
}

static void send_octets(struct writer *w, const uint8_t *octets, size_t n, unsigned each)
{
    if (each == 1)
        for (size_t k = 0; k < n; k++)
            send_barker(w, octets[k], 1);
    else
        for (size_t k = 0; k < n; k++)
            send_barker(w, octets[k], 2);
}

/* Sends a CCK symbol: two bits for p1, a word for the rest; `odd` symbols grow by 2 more. The eight
 * chips are turned together, side by side in one number: no sum of theirs reaches its neighbour. */
static inline void send_cck(struct writer *w, unsigned two, unsigned word, unsigned odd)
{
    uint64_t eight;

    w->phase = (w->phase + growth_of[two] + 2 * odd) & 3;
    memcpy(&eight, cck_words[word], CCK);
    eight = (eight + w->phase * 0x0101010101010101u) & 0x0303030303030303u;
    memcpy(w->at, &eight, CCK);
    w->at += CCK;
}

static void send_55(struct writer *w, const uint8_t *payload, size_t n)
{
    for (size_t k = 0; k < n; k++) {
        unsigned out = scramble(w, payload[k]);
        send_cck(w, out & 3, words_55[direct[out >> 2 & 3]], 0);
        send_cck(w, out >> 4 & 3, words_55[direct[out >> 6]], 1);
    }
}

static void send_11(struct writer *w, const uint8_t *payload, size_t n)
{
    for (size_t k = 0; k < n; k++) {
        unsigned out = scramble(w, payload[k]);
        unsigned word = 16u * direct[out >> 2 & 3] + 4u * direct[out >> 4 & 3] + direct[out >> 6];
        send_cck(w, out & 3, word, k & 1);
    }
}

static void send_frame(struct writer *w, const struct kind *kind, const struct rate *rate, uint32_t clock,
                       const uint8_t *payload, size_t n)
{
    uint32_t header = rate->code | service_length(rate, (uint32_t)n, clock) << 8, crc = crc_of(header);
    const uint8_t sfd[2] = {(uint8_t)kind->sfd, (uint8_t)(kind->sfd >> 8)};
    const uint8_t octets[6] = {(uint8_t)header,         (uint8_t)(header >> 8), (uint8_t)(header >> 16),
                               (uint8_t)(header >> 24), (uint8_t)crc,           (uint8_t)(crc >> 8)};

    for (unsigned k = 0; k < kind->sync_bits; k += 8)
        send_barker(w, kind->sync_octet, 1);
    send_octets(w, sfd, 2, 1);
    send_octets(w, octets, 6, kind->header_each);
    if (rate->code == DSSS_RATE_11)
        send_11(w, payload, n);
    else if (rate->code == DSSS_RATE_5_5)
        send_55(w, payload, n);
    else
        send_octets(w, payload, n, rate->each);
}

static dsss_written written(uint64_t kind, uint64_t code, uint64_t phase, uint64_t clock,
                            const uint8_t *payload, size_t n, uint8_t *chips, size_t room)
{
    const struct rate *rate = rate_of(code);
    dsss_written answer = {0, 0};

    if (kind > DSSS_SHORT)
        answer.number = DSSS_REFUSED_KIND;
    else if (!rate)
        answer.number = DSSS_REFUSED_RATE;
    else if (kind == DSSS_SHORT && code == DSSS_RATE_1)
        answer.number = DSSS_REFUSED_SHORT_RATE;
    else if (n == 0 || n > DSSS_PAYLOAD_MAX)
        answer.number = DSSS_REFUSED_PAYLOAD;
    else if (phase > 3)
        answer.number = DSSS_REFUSED_PHASE;
    else if (room < frame_chips(&kinds[kind], rate, n))
        answer.number = DSSS_REFUSED_CHIP_ROOM;
    else {
        struct writer w = {chips, (unsigned)phase, kinds[kind].start};
        send_frame(&w, &kinds[kind], rate, clock != 0, payload, n);
        answer.chips = frame_chips(&kinds[kind], rate, n);
    }
    return answer;
}

dsss_written plain_write(uint64_t kind, uint64_t rate, uint64_t phase, uint64_t clock,
                         const uint8_t *payload, size_t payload_len, uint8_t *chips, size_t chips_len)
{
    dsss_written answer = written(kind, rate, phase, clock, payload, payload_len, chips, chips_len);

    if (chips_len > answer.chips)
        memset(chips + answer.chips, DSSS_CHIP_LOST, chips_len - answer.chips);
    return answer;
}
