/* plain_read.c: reading a frame and saying why it is refused, in plain C, as a good engineer would after docs/RULES.md.
 *
 * With plain_choose.c and plain_write.c it is the measure beside the library in bench.c, so it is meant to be fast
 * where plain C can be: up to 64 symbols are chosen at a time, sixteen side by side, and their octets heard together.
 * No allocation, no intrinsics, nothing written for one processor. Nothing here is proved. */
#include "plain_choose.h"

#include <string.h>

/* ---- Reading --------------------------------------------------------------------------------- */

/* Who reads: the fastest rate that they know, and the bits of SERVICE that they allow, below 11 Mbit/s and at it. */
struct who {
    unsigned fastest;
    uint32_t service, service_11;
};

static const struct who ours = {DSSS_RATE_11, 0x04, 0x84}; /* the clock bit, and bit 7 */
static const struct who guides_1997 = {DSSS_RATE_2, 0x00, 0x00};

struct reader {
    const struct who *who;
    const struct recording *from;
    size_t at;        /* the next symbol's first chip */
    unsigned phase;   /* of the last symbol */
    unsigned history; /* the last 7 scrambled bits, the last being the highest */
    struct least least;
    unsigned grown;       /* the growth, 1 or 3, of the 1 Mbit/s symbol that it stopped at, if it did */
    uint64_t sfd, header; /* as read, if the front was heard to its end */
};

/* The words of the next up to 64 symbols. */
static inline void choose(struct reader *r, const struct rate *rate, size_t symbols, uint8_t *words)
{
    plain_choose(r->from, rate, r->at, symbols, words, &r->least);
}

/* The octets of symbols of `each` bits. */
static inline void unscramble(struct reader *r, unsigned each, const uint8_t *restrict bits, size_t symbols,
                              uint8_t *restrict octets)
{
    for (size_t s = 0; s < symbols; s += 8 / each) {
        unsigned all = r->history;
        for (unsigned k = 0; k < 8 / each; k++)
            all |= (unsigned)bits[s + k] << (7 + k * each);
        r->history = all >> 8;
        octets[s * each / 8] = (uint8_t)(all >> 7 ^ all >> 3 ^ all);
    }
}

/* The two bits of a growth: growth_of back, without a table, so that compilers do sixteen at once. */
static inline uint8_t two_bits(unsigned grown)
{
    return (uint8_t)((grown >> 1 & 1) | ((grown ^ grown >> 1) & 1) << 1);
}

/* Has the reader stand at the first of its next symbols that has grown by 1 or 3; words[0] is the phase before them. */
static void stop_at_odd(struct reader *r, const uint8_t *words)
{
    size_t s = 0;

    while ((words[s + 1] - words[s]) % 2 == 0)
        s++;
    r->at += BARKER * s;
    r->grown = (unsigned)(words[s + 1] - words[s]) & 3;
}

/* The octets of up to 64 Barker symbols, `each` bits (1 or 2) a symbol; words[0] is for the phase before them. False
 * at a 1 Mbit/s symbol grown by 1 or 3; the reader then stands at that symbol. */
static inline int pass_barkers(struct reader *r, unsigned each, uint8_t *restrict words, size_t symbols,
                               uint8_t *restrict octets)
{
    uint8_t bits[MANY], odd = 0;

    words[0] = (uint8_t)r->phase;
    for (size_t s = 0; s < symbols; s++) {
        uint8_t growth = (uint8_t)(words[s + 1] - words[s]);
        odd |= growth;
        bits[s] = each == 1 ? growth >> 1 & 1 : two_bits(growth);
    }
    if (each == 1 && odd % 2 == 1) {
        stop_at_odd(r, words);
        return 0;
    }
    unscramble(r, each, bits, symbols, octets);
    r->phase = words[symbols];
    r->at += BARKER * symbols;
    return 1;
}

static inline int read_barkers(struct reader *r, unsigned each, uint8_t *octets, size_t n)
{
    const size_t many = MANY * each / 8; /* octets at a time */
    uint8_t words[1 + MANY];

    for (size_t k = 0; k < n; k += many) {
        size_t symbols = (n - k < many ? n - k : many) * 8 / each;
        choose(r, &rates[each - 1], symbols, words + 1);
        if (!pass_barkers(r, each, words, symbols, octets + k))
            return 0;
    }
    return 1;
}

/* A loop for each rate, so that it is not asked for at each symbol. */
static int read_octets(struct reader *r, unsigned each, uint8_t *octets, size_t n)
{
    return each == 1 ? read_barkers(r, 1, octets, n) : read_barkers(r, 2, octets, n);
}

/* The octets of up to 64 symbols of 5.5 Mbit/s, the first of which is even; words[0] as above. */
static void pass_55(struct reader *r, uint8_t *restrict words, size_t symbols, uint8_t *restrict octets)
{
    uint8_t bits[MANY];

    words[0] = (uint8_t)(64 * r->phase);
    for (size_t s = 0; s < symbols; s++)
        bits[s] = (uint8_t)(two_bits(words[s + 1] / 64u - words[s] / 64u + 2 * (s & 1)) | (words[s + 1] >> 3 & 4)
                            | (words[s + 1] << 2 & 8));
    unscramble(r, 4, bits, symbols, octets);
    r->phase = words[symbols] / 64;
    r->at += CCK * symbols;
}

static void read_55(struct reader *r, uint8_t *octets, size_t n)
{
    uint8_t words[1 + MANY];

    for (size_t k = 0; k < n; k += MANY / 2) {
        size_t symbols = n - k < MANY / 2 ? 2 * (n - k) : MANY;
        choose(r, &rates[2], symbols, words + 1);
        pass_55(r, words, symbols, octets + k);
    }
}

/* The bits of a symbol of 11 Mbit/s that has grown: those of p2, p3 and p4 are the word's lowest six, the last
 * first. */
static inline uint8_t bits_11(unsigned word, unsigned grown)
{
    return (uint8_t)(two_bits(grown) | (word >> 3 & 4) | (word >> 1 & 8) | (word << 1 & 16) | (word << 3 & 32)
                     | (word << 5 & 64) | (word << 7 & 128));
}

/* The octets of up to 64 symbols of 11 Mbit/s, the first of which is even; words[0] is for the phase before them. Each
 * word stands beside the one before it, and so do the bits. */
static void pass_11(struct reader *r, uint8_t *restrict words, size_t symbols, uint8_t *restrict octets)
{
    uint8_t last[MANY], in[1 + MANY];

    words[0] = (uint8_t)(64 * r->phase);
    memcpy(last, words, symbols);
    in[0] = (uint8_t)(r->history << 1);
    for (size_t s = 0; s < symbols; s++)
        in[s + 1] = bits_11(words[s + 1], words[s + 1] / 64u - last[s] / 64u + 2 * (s & 1));
    for (size_t s = 0; s < symbols; s++)
        octets[s] = (uint8_t)(in[s + 1] ^ (in[s + 1] << 4 | in[s] >> 4) ^ (in[s + 1] << 7 | in[s] >> 1));
    r->phase = words[symbols] / 64;
    r->history = in[symbols] >> 1;
    r->at += CCK * symbols;
}

static void read_11(struct reader *r, uint8_t *octets, size_t n)
{
    uint8_t words[1 + MANY];

    for (size_t k = 0; k < n; k += MANY) {
        size_t symbols = n - k < MANY ? n - k : MANY;
        choose(r, &rates[3], symbols, words + 1);
        pass_11(r, words, symbols, octets + k);
    }
}

/* False at a symbol grown by 1 or 3, as read_barker. */
static int read_payload(struct reader *r, const struct rate *rate, uint8_t *octets, size_t n)
{
    if (rate->symbol == BARKER)
        return read_octets(r, rate->each, octets, n);
    if (rate->code == DSSS_RATE_5_5)
        read_55(r, octets, n);
    else
        read_11(r, octets, n);
    return 1;
}

static uint64_t number_of_octets(const uint8_t *octets, size_t n)
{
    uint64_t number = 0;

    for (size_t k = 0; k < n; k++)
        number |= (uint64_t)octets[k] << 8 * k;
    return number;
}

/* SYNC is read for its phases, growths and leads only. The first symbol is the reference of the second, so it grows
 * from itself. */
static int read_front(struct reader *r, const struct kind *kind)
{
    uint8_t first[MANY], sync[16], octets[8];
    struct least none = {0, 0, 0};

    plain_choose(r->from, &rates[0], 0, 1, first, &none);
    r->phase = first[0];
    if (!read_octets(r, 1, sync, kind->sync_bits / 8) || !read_octets(r, 1, octets, 2)
        || !read_octets(r, kind->header_each, octets + 2, 6))
        return 0;
    r->sfd = number_of_octets(octets, 2);
    r->header = number_of_octets(octets + 2, 6);
    return 1;
}

static dsss_record refused(uint64_t number, size_t place, uint64_t length)
{
    dsss_record record = {number, place, 0, length, 0, 0, 0, 0, 0};

    return record;
}

/* What the header's 32 bits tell, once the CRC is known to be right: the answer of a good read, or 13 to 16. */
static dsss_record judge(const struct who *who, const struct recording *from, uint64_t kind, uint32_t header)
{
    const struct rate *rate = rate_of(header & 0xFF);
    uint32_t service = header >> 8 & 0xFF, length = header >> 16, clock = service >> 2 & 1;

    if (!rate || rate->code > who->fastest || (kind == DSSS_SHORT && rate->code == DSSS_RATE_1))
        return refused(DSSS_REFUSED_SIGNAL, 0, length);
    if ((service & ~(rate->code == DSSS_RATE_11 ? who->service_11 : who->service)) != 0)
        return refused(DSSS_REFUSED_SERVICE, 0, length);
    int32_t n = octets_of(rate, length, service >> 7);
    if (n < 1 || n > DSSS_PAYLOAD_MAX || service_length(rate, (uint32_t)n, clock) != header >> 8)
        return refused(DSSS_REFUSED_LENGTH, 0, length);
    size_t end = frame_chips(&kinds[kind], rate, (size_t)n);
    if (from->len < end)
        return refused(DSSS_REFUSED_CUT, 0, length);
    dsss_record record = {0, 0, rate->code, length, (uint64_t)n, end, clock, 0, 0};
    return record;
}

/* What the front tells: the answer of a good read, or 8 to 16. The reader then stands behind the front, and no chip
 * there is looked at. */
static dsss_record front_tells(struct reader *r, uint64_t kind)
{
    const struct recording *from = r->from;
    size_t front = kinds[kind].front;

    if (from->len < front)
        return refused(DSSS_REFUSED_FRONT, 0, 0);
    size_t bad = plain_first_unusable(from, 0, front);
    if (bad < front)
        return refused(DSSS_REFUSED_CHIP, bad, 0);
    if (!read_front(r, &kinds[kind]))
        return refused(DSSS_REFUSED_GROWTH, r->at, 0);
    uint64_t sfd = r->sfd, header = r->header;
    if (sfd != kinds[kind].sfd)
        return refused(DSSS_REFUSED_SFD, 0, 0);
    if (crc_of((uint32_t)header) != header >> 32)
        return refused(DSSS_REFUSED_CRC, 0, 0);
    return judge(r->who, from, kind, (uint32_t)header);
}

/* All of a frame: what the front tells, then 17, then the payload with its 9 and 10. */
static dsss_record read_frame(const struct who *who, uint64_t kind, const struct recording *from, uint8_t *octets,
                              size_t room)
{
    struct reader r = {.who = who, .from = from, .least = {UINT64_MAX, 0, 0}};
    dsss_record told = front_tells(&r, kind);

    if (told.number != 0)
        return told;
    if (room < told.n)
        return refused(DSSS_REFUSED_OCTET_ROOM, 0, told.length);
    size_t bad = plain_first_unusable(from, r.at, told.used);
    if (bad < told.used)
        return refused(DSSS_REFUSED_CHIP, bad, told.length);
    if (!read_payload(&r, rate_of(told.rate), octets, told.n))
        return refused(DSSS_REFUSED_GROWTH, r.at, told.length);
    told.lead = r.least.lead;
    told.symbol = r.least.symbol;
    return told;
}

/* Clears what is not payload: all of the buffer if refused, n being 0 then. */
static dsss_record cleared(dsss_record record, uint8_t *octets, size_t room)
{
    if (room > record.n)
        memset(octets + record.n, 0, room - record.n);
    return record;
}

dsss_record plain_read_hard(uint64_t kind, const uint8_t *chips, size_t chips_len, uint8_t *octets, size_t octets_len)
{
    struct recording from = {chips, NULL, NULL, NULL, chips_len};

    if (kind > DSSS_SHORT)
        return cleared(refused(DSSS_REFUSED_KIND, 0, 0), octets, octets_len);
    return cleared(read_frame(&ours, kind, &from, octets, octets_len), octets, octets_len);
}

dsss_record plain_read_soft(uint64_t kind, const float *i, size_t i_len, const float *q,
                            size_t q_len, uint8_t *octets, size_t octets_len)
{
    struct recording from = {NULL, i, q, NULL, i_len};

    if (kind > DSSS_SHORT)
        return cleared(refused(DSSS_REFUSED_KIND, 0, 0), octets, octets_len);
    if (i_len != q_len)
        return cleared(refused(DSSS_REFUSED_ROWS, 0, 0), octets, octets_len);
    return cleared(read_frame(&ours, kind, &from, octets, octets_len), octets, octets_len);
}

dsss_record plain_read_bytes(uint64_t kind, const int8_t *bytes, size_t bytes_len, uint8_t *octets,
                             size_t octets_len)
{
    struct recording from = {NULL, NULL, NULL, bytes, bytes_len / 2};

    if (kind > DSSS_SHORT)
        return cleared(refused(DSSS_REFUSED_KIND, 0, 0), octets, octets_len);
    if (bytes_len % 2 != 0)
        return cleared(refused(DSSS_REFUSED_ROWS, 0, 0), octets, octets_len);
    return cleared(read_frame(&ours, kind, &from, octets, octets_len), octets, octets_len);
}

dsss_record plain_read_1997(const uint8_t *chips, size_t chips_len, uint8_t *octets, size_t octets_len)
{
    const struct recording recorded = {chips, NULL, NULL, NULL, chips_len};

    return cleared(read_frame(&guides_1997, DSSS_LONG, &recorded, octets, octets_len), octets, octets_len);
}

dsss_coming plain_read_front(uint64_t kind, const uint8_t *chips, size_t chips_len)
{
    struct recording from = {chips, NULL, NULL, NULL, chips_len};
    struct reader r = {.who = &ours, .from = &from};
    dsss_record told = kind > DSSS_SHORT ? refused(DSSS_REFUSED_KIND, 0, 0) : front_tells(&r, kind);
    size_t at = told.number == 0 ? r.at : 0;
    dsss_coming coming = {told.number, told.place, told.rate, told.length, told.clock,
                          told.n, told.used, at, told.used - at};

    return coming;
}

/* ---- Why a read is refused ------------------------------------------------------------------- */

static dsss_reason reason(dsss_record told, uint64_t expected, uint64_t found)
{
    dsss_reason answer = {told.number, told.place, expected, found};

    return answer;
}

/* A CRC as a number whose first sent bit is the highest, from one whose first sent bit is the lowest. */
static uint64_t highest_first(uint64_t crc)
{
    uint64_t number = 0;

    for (unsigned k = 0; k < 16; k++)
        number |= (crc >> k & 1) << (15 - k);
    return number;
}

/* Of 13 to 16, by the header's bits. */
static dsss_reason header_reason(const struct reader *r, uint64_t kind, dsss_record told)
{
    const struct rate *rate = rate_of(r->header & 0xFF);
    uint32_t service = r->header >> 8 & 0xFF, bit7 = service >> 7, length = r->header >> 16 & 0xFFFF;

    if (told.number == DSSS_REFUSED_SIGNAL)
        return reason(told, 0, r->header & 0xFF);
    if (told.number == DSSS_REFUSED_SERVICE)
        return reason(told, 0, service & (rate->code == DSSS_RATE_11 ? 0x7Bu : 0xFBu));
    int32_t n = octets_of(rate, length, bit7);
    if (told.number == DSSS_REFUSED_CUT)
        return reason(told, frame_chips(&kinds[kind], rate, (size_t)n), r->from->len);
    int some = n >= 1 && n <= DSSS_PAYLOAD_MAX;
    return reason(told, some ? service_length(rate, (uint32_t)n, 0) >> 8 : 0, length);
}

/* Of 8 to 16, by what the reader heard. */
static dsss_reason front_reason(const struct reader *r, uint64_t kind, dsss_record told)
{
    switch (told.number) {
    case DSSS_REFUSED_FRONT:
        return reason(told, kinds[kind].front, r->from->len);
    case DSSS_REFUSED_CHIP:
        return reason(told, 0, r->from->chips[told.place]);
    case DSSS_REFUSED_GROWTH:
        return reason(told, 0, r->grown);
    case DSSS_REFUSED_SFD:
        return reason(told, kinds[kind].sfd, r->sfd);
    case DSSS_REFUSED_CRC:
        return reason(told, highest_first(crc_of((uint32_t)r->header)), highest_first(r->header >> 32));
    default:
        return header_reason(r, kind, told);
    }
}

/* Whether the next up to 64 symbols, at 1 Mbit/s, have all grown by 0 or 2; else the reader stands at the first that
 * has not. */
static int pass_even(struct reader *r, size_t symbols)
{
    uint8_t words[1 + MANY], odd = 0;

    words[0] = (uint8_t)r->phase;
    choose(r, &rates[0], symbols, words + 1);
    for (size_t s = 0; s < symbols; s++)
        odd |= words[s + 1] ^ words[s];
    if (odd % 2 == 1) {
        stop_at_odd(r, words);
        return 0;
    }
    r->phase = words[symbols];
    r->at += BARKER * symbols;
    return 1;
}

static int all_even(struct reader *r, size_t symbols)
{
    int even = 1;

    for (size_t s = 0; s < symbols && even; s += MANY)
        even = pass_even(r, symbols - s < MANY ? symbols - s : MANY);
    return even;
}

/* 17, then 9 and 10 over the payload, by a front that tells of it; no octet is worked out. */
static dsss_reason payload_reason(struct reader *r, dsss_record told, uint64_t room)
{
    const uint8_t *chips = r->from->chips;

    if (told.n > room)
        return reason(refused(DSSS_REFUSED_OCTET_ROOM, 0, 0), told.n, room);
    size_t bad = plain_first_unusable(r->from, r->at, told.used);
    if (bad < told.used)
        return reason(refused(DSSS_REFUSED_CHIP, bad, 0), 0, chips[bad]);
    if (told.rate == DSSS_RATE_1 && !all_even(r, 8 * told.n))
        return reason(refused(DSSS_REFUSED_GROWTH, r->at, 0), 0, r->grown);
    return reason(refused(0, 0, 0), 0, 0);
}

dsss_reason plain_why(uint64_t kind, const uint8_t *chips, size_t chips_len, uint64_t room)
{
    struct recording hard = {chips, NULL, NULL, NULL, chips_len};
    struct reader heard = {.who = &ours, .from = &hard};

    if (kind > DSSS_SHORT)
        return reason(refused(DSSS_REFUSED_KIND, 0, 0), 0, kind);
    dsss_record told = front_tells(&heard, kind);
    return told.number != 0 ? front_reason(&heard, kind, told) : payload_reason(&heard, told, room);
}

/* ---- The parts, for timing ------------------------------------------------------------------- */

#ifndef PLAIN_AS_DSSS
void plain_count(const float *samples, size_t samples_len, int32_t *counts, size_t counts_len)
{
    size_t len = samples_len < counts_len ? samples_len : counts_len;

    for (size_t k = 0; k < len; k++)
        counts[k] = (int32_t)plain_count_of(samples[k]);
}

uint64_t plain_decide(uint64_t rate, const float *i, size_t i_len, const float *q, size_t q_len)
{
    const struct recording from = {NULL, i, q, NULL, i_len < q_len ? i_len : q_len};
    const struct rate *found = rate_of(rate);
    struct least least = {UINT64_MAX, 0, 0};
    uint8_t words[MANY];

    if (!found || from.len < found->symbol)
        return 0;
    plain_choose(&from, found, 0, 1, words, &least);
    return words[0];
}

uint64_t plain_eleven(uint64_t recorder, const uint8_t *octets, size_t octets_len, const int8_t *bytes,
                      size_t bytes_len, const float *i, size_t i_len, const float *q, size_t q_len)
{
    const struct recording rows[3] = {{octets, NULL, NULL, NULL, octets_len},
                                      {NULL, i, q, NULL, i_len < q_len ? i_len : q_len},
                                      {NULL, NULL, NULL, bytes, bytes_len / 2}};
    struct least least = {UINT64_MAX, 0, 0};
    uint8_t words[MANY];

    if (recorder > 2 || rows[recorder].len < CCK * MANY
        || plain_first_unusable(&rows[recorder], 0, CCK * MANY) < CCK * MANY)
        return 0;
    plain_choose(&rows[recorder], &rates[3], 0, MANY, words, &least);
    return words[MANY - 1];
}
#endif
