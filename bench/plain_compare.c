/* plain_compare.c: two hard recordings compared in plain C, after docs/RULES.md, as a good C engineer would by hand.
 *
 * Two reads, and one loop that lists where two rows of octets differ: it passes over blocks that are alike, and goes on
 * counting where the list has no room left. No allocation, nothing written for one processor. Nothing here is proved.
 */
#include "plain.h"

#include <string.h>

enum { BLOCK = 64, PLACES = 3 }; /* octets that are passed over together; places of an entry */

/* A list of differences on its way into its row: how many entries there are, and how many have room. */
struct list {
    uint64_t *row;
    size_t room;
    size_t entries;
};

static inline void enter(struct list *list, size_t index, uint8_t a, uint8_t b)
{
    if (list->entries < list->room) {
        uint64_t *entry = list->row + PLACES * list->entries;
        entry[0] = index;
        entry[1] = a;
        entry[2] = b;
    }
    list->entries++;
}

static void list_differences(const uint8_t *a, const uint8_t *b, size_t len, struct list *list)
{
    for (size_t at = 0; at < len; at += BLOCK) {
        size_t end = len - at < BLOCK ? len : at + BLOCK;
        if (memcmp(a + at, b + at, end - at) == 0)
            continue;
        for (size_t k = at; k < end; k++)
            if (a[k] != b[k])
                enter(list, k, a[k], b[k]);
    }
}

/* How many of the first `len` octets differ. The row has the list of them and zeros behind it, or zeros alone. */
static uint64_t differences(const uint8_t *a, const uint8_t *b, size_t len, uint64_t *row, size_t row_len)
{
    struct list list = {row, row_len / PLACES, 0};

    list_differences(a, b, len, &list);
    size_t listed = list.entries <= list.room ? PLACES * list.entries : 0;
    if (listed < row_len)
        memset(row + listed, 0, (row_len - listed) * sizeof *row);
    return list.entries;
}

static inline size_t shorter(size_t one, size_t other)
{
    return one < other ? one : other;
}

dsss_compared plain_compare(uint64_t kind, const uint8_t *a, size_t a_len, const uint8_t *b, size_t b_len,
                            uint64_t *chip_row, size_t chip_row_len, uint64_t *octet_row, size_t octet_row_len,
                            uint8_t *octets_a, size_t octets_a_len, uint8_t *octets_b, size_t octets_b_len)
{
    dsss_compared compared;

    compared.a = plain_read_hard(kind, a, a_len, octets_a, octets_a_len);
    compared.b = plain_read_hard(kind, b, b_len, octets_b, octets_b_len);
    compared.chips = differences(a, b, shorter(a_len, b_len), chip_row, chip_row_len);
    int both = compared.a.number == 0 && compared.b.number == 0;
    compared.n_a = both ? compared.a.n : 0;
    compared.n_b = both ? compared.b.n : 0;
    size_t octets = shorter((size_t)compared.n_a, (size_t)compared.n_b);
    compared.octets = differences(octets_a, octets_b, octets, octet_row, octet_row_len);
    return compared;
}
