/* plain_lanes.h: the choice of symbols over sixteen numbers side by side, one of each symbol, with its lead.
 *
 * plain_choose.c includes this once for each recorder, with the types of its numbers and a name of its own:
 *   NAME(x)  x with the recorder's ending
 *   NUMBER   a sum of chips
 *   KEY      the size of one, and more: a type whose larger and smaller compilers find for many at once
 *   LEAD     a lead, in what NUMBER counts in, and MOST, the largest number of the type
 *   SIZE(a)  the size of a NUMBER as a KEY
 *
 * A word turned by 0, 1, 2, 3 scores a, b, -a, -b: a is its sum of chips, b that of a quarter turn more. So one pair of
 * sums serves four words, and the two largest of the four scores are the two sizes. The first of those with the largest
 * score is found by keys, 4 score + 3 - turn: from 4 a + 1 and 4 b + 1 they are a size and a constant.
 *
 * Of all keys the largest is kept, and the second largest beside it: the word left out is one, so of two equal scores
 * the second is as large as the first, and the lead is 0. */

typedef NUMBER NAME(row)[LANES];

static inline KEY NAME(larger)(KEY a, KEY b)
{
    return a > b ? a : b;
}

static inline KEY NAME(smaller)(KEY a, KEY b)
{
    return a < b ? a : b;
}

/* The second largest of all so far, where a further lot has its largest and its second. */
static inline KEY NAME(second)(KEY best, KEY second, KEY key, KEY next)
{
    return NAME(larger)(NAME(smaller)(best, key), NAME(larger)(second, next));
}

/* The score that a key is of, with so many bits below it. */
static inline int32_t NAME(lead)(KEY best, KEY second, unsigned bits)
{
    return ((int32_t)best >> bits) - ((int32_t)second >> bits);
}

/* The phases of sixteen Barker symbols, from 4 times their sums, and 1 more. */
static inline void NAME(barkers)(const NUMBER *restrict a, const NUMBER *restrict b, uint8_t *restrict words,
                                 LEAD *restrict leads)
{
    for (unsigned s = 0; s < LANES; s++) {
        KEY one = (KEY)(SIZE(a[s]) + 2), two = (KEY)(SIZE(b[s]) + 1);
        KEY best = NAME(larger)(one, two);
        words[s] = (uint8_t)(3 - ((int32_t)best & 3));
        leads[s] = (LEAD)NAME(lead)(best, NAME(smaller)(one, two), 2);
    }
}

/* For CCK a chip's row counts 4 times, negated where chips 3 and 6 have a half turn of their own, and 1 more in chip 7,
 * which nothing turns. A quarter turn back of (i, q) is (q, -i). */

/* Of a word at 5.5 Mbit/s in its four turns, the largest key and the second, in the place k of the four. */
static inline void NAME(five)(NUMBER a, NUMBER b, int32_t k, KEY *best, KEY *second)
{
    KEY one = (KEY)(SIZE(a) + 2), two = (KEY)(SIZE(b) + 1);
    KEY key = (KEY)(4 * NAME(larger)(one, two) + (KEY)(3 - k));

    *second = NAME(second)(*best, *second, key, (KEY)(4 * NAME(smaller)(one, two)));
    *best = NAME(larger)(*best, key);
}

/* The words of sixteen symbols of 5.5 Mbit/s: p3 = 0; p2 = 3 is p2 = 1 with chips 0, 2, 4, 6 negated, p4 = 2 is p4 = 0
 * with the first four negated. Even chips are turned back for p2 = 1. The key is 16 times the score, and 15 less the
 * word's place among the 16. */
static inline void NAME(fives)(NAME(row) *restrict i, NAME(row) *restrict q, uint8_t *restrict words,
                               LEAD *restrict leads)
{
    for (unsigned s = 0; s < LANES; s++) {
        NUMBER a = (NUMBER)(q[0][s] + q[2][s]), b = (NUMBER)(q[4][s] + q[6][s]);
        NUMBER c = (NUMBER)(i[1][s] + i[3][s]), d = (NUMBER)(i[5][s] + i[7][s]);
        NUMBER e = (NUMBER)(i[0][s] + i[2][s]), f = (NUMBER)(i[4][s] + i[6][s]);
        NUMBER g = (NUMBER)(q[1][s] + q[3][s]), h = (NUMBER)(q[5][s] + q[7][s]);
        KEY best = 0, second = 0;

        NAME(five)((NUMBER)(d + c + b + a), (NUMBER)(h + g - f - e), 0, &best, &second);
        NAME(five)((NUMBER)(d - c + b - a), (NUMBER)(h - g - f + e), 1, &best, &second);
        NAME(five)((NUMBER)(d + c - b - a), (NUMBER)(h + g + f + e), 2, &best, &second);
        NAME(five)((NUMBER)(d - c - b + a), (NUMBER)(h - g + f - e), 3, &best, &second);
        leads[s] = (LEAD)NAME(lead)(best, second, 4);
        int32_t place = 15 - ((int32_t)best & 15);
        words[s] = (uint8_t)((place & 12) << 4 | 16 | (place & 2) << 4 | (place & 1) << 1);
    }
}

/* For each turn p, in row p: y, and x turned back by p quarter turns. */
static inline void NAME(join)(const NUMBER *restrict xa, const NUMBER *restrict xb, const NUMBER *restrict ya,
                              const NUMBER *restrict yb, NAME(row) *restrict a, NAME(row) *restrict b)
{
    for (unsigned s = 0; s < LANES; s++) {
        a[0][s] = (NUMBER)(ya[s] + xa[s]);
        b[0][s] = (NUMBER)(yb[s] + xb[s]);
        a[1][s] = (NUMBER)(ya[s] + xb[s]);
        b[1][s] = (NUMBER)(yb[s] - xa[s]);
        a[2][s] = (NUMBER)(ya[s] - xa[s]);
        b[2][s] = (NUMBER)(yb[s] - xb[s]);
        a[3][s] = (NUMBER)(ya[s] - xb[s]);
        b[3][s] = (NUMBER)(yb[s] + xa[s]);
    }
}

/* What is kept of the groups of a symbol of 11 Mbit/s, and of sixteen. A group is the 16 words that share p2 and p3. */
struct NAME(kept) {
    KEY best, second;
    NUMBER at, xa, xb; /* of the best: 4 p2 + p3, and the sums of chips 0 to 3 */
};

struct NAME(rows_kept) {
    KEY best[LANES], second[LANES];
    NAME(row) at, xa, xb;
};

/* A word's sums (p1 = 0) are y, those of chips 4 to 7, and x, those of chips 0 to 3, turned back by p4. In a group y in
 * its four turns meets x in its four: y's turn is p1, and p4 is how much further x is turned. So the largest score is
 * that of the larger sizes of both, and the second has one of them and the smaller of the other. Of equal scores the
 * larger key has the smaller p1, and of equal keys the first stays, its p2 and p3 being the smallest. */
static inline void NAME(group)(struct NAME(kept) *k, unsigned at, NUMBER xa, NUMBER xb, NUMBER ya, NUMBER yb)
{
    KEY y1 = (KEY)(SIZE(ya) + 2), y2 = (KEY)(SIZE(yb) + 1), x1 = SIZE(xa), x2 = SIZE(xb);
    KEY y = NAME(larger)(y1, y2), x = NAME(larger)(x1, x2), key = (KEY)(y + x);
    KEY next = NAME(larger)((KEY)(y + NAME(smaller)(x1, x2)), (KEY)(NAME(smaller)(y1, y2) + x));

    k->second = NAME(second)(k->best, k->second, key, next);
    k->at = k->best < key ? (NUMBER)at : k->at;
    k->xa = k->best < key ? xa : k->xa;
    k->xb = k->best < key ? xb : k->xb;
    k->best = NAME(larger)(k->best, key);
}

/* The four groups of p2 in sixteen symbols. Chips are joined in pairs for p2: t and u, those of x, and v and w, those
 * of y. */
static inline void NAME(four_groups)(struct NAME(rows_kept) *restrict r, unsigned p2, NAME(row) (*restrict a)[4],
                                     NAME(row) (*restrict b)[4])
{
    for (unsigned s = 0; s < LANES; s++) {
        NUMBER ta = a[0][p2][s], tb = b[0][p2][s], ua = a[1][p2][s], ub = b[1][p2][s];
        NUMBER va = a[2][p2][s], vb = b[2][p2][s], wa = a[3][p2][s], wb = b[3][p2][s];
        struct NAME(kept) k = {r->best[s], r->second[s], r->at[s], r->xa[s], r->xb[s]};

        NAME(group)(&k, 4 * p2, (NUMBER)(ua + ta), (NUMBER)(ub + tb), (NUMBER)(wa + va), (NUMBER)(wb + vb));
        NAME(group)(&k, 4 * p2 + 1, (NUMBER)(ua + tb), (NUMBER)(ub - ta), (NUMBER)(wa + vb), (NUMBER)(wb - va));
        NAME(group)(&k, 4 * p2 + 2, (NUMBER)(ua - ta), (NUMBER)(ub - tb), (NUMBER)(wa - va), (NUMBER)(wb - vb));
        NAME(group)(&k, 4 * p2 + 3, (NUMBER)(ua - tb), (NUMBER)(ub + ta), (NUMBER)(wa - vb), (NUMBER)(wb + va));
        r->best[s] = k.best;
        r->second[s] = k.second;
        r->at[s] = k.at;
        r->xa[s] = k.xa;
        r->xb[s] = k.xb;
    }
}

/* The words of sixteen symbols of 11 Mbit/s. */
static inline void NAME(elevens)(NAME(row) *restrict i, NAME(row) *restrict q, uint8_t *restrict words,
                                 LEAD *restrict leads)
{
    struct NAME(rows_kept) r = {{0}, {0}, {0}, {0}, {0}};
    NAME(row) a[4][4], b[4][4];

    for (unsigned k = 0; k < 4; k++)
        NAME(join)(i[2 * k], q[2 * k], i[2 * k + 1], q[2 * k + 1], a[k], b[k]);
    for (unsigned p2 = 0; p2 < 4; p2++)
        NAME(four_groups)(&r, p2, a, b);
    for (unsigned s = 0; s < LANES; s++) {
        int32_t p1 = 3 - ((int32_t)r.best[s] & 3);
        int32_t xa = (int32_t)r.xa[s], xb = (int32_t)r.xb[s], a4 = p1 & 1 ? xb : xa, b4 = p1 & 1 ? -xa : xb;
        int32_t one = (p1 & 2 ? -a4 : a4) + 1, two = (p1 & 2 ? -b4 : b4) + 1;
        one = (one < 0 ? -one : one) + 2;
        two = (two < 0 ? -two : two) + 1;
        words[s] = (uint8_t)(64 * p1 + 4 * (int32_t)r.at[s] + 3 - ((one > two ? one : two) & 3));
        leads[s] = (LEAD)NAME(lead)(r.best[s], r.second[s], 2);
    }
}

/* The smallest lead of a block, noted if it is below all before; a lead of 1 is so many counts. */
static inline void NAME(note)(struct least *least, const LEAD *leads, size_t symbols, uint32_t counts)
{
    LEAD small = MOST;

    for (size_t s = 0; s < symbols; s++)
        small = leads[s] < small ? leads[s] : small;
    if (counts * (uint64_t)small < least->lead) {
        size_t first = 0;
        while (leads[first] != small)
            first++;
        least->lead = counts * (uint64_t)small;
        least->symbol = least->next + first;
    }
    least->next += symbols;
}

#undef NAME
#undef NUMBER
#undef KEY
#undef LEAD
#undef MOST
#undef SIZE
