/* recordings.c: makes the recordings that tests/month/run counts, each a file of this folder as `month` takes it:
 * the kind's octet, then the chips. A file is named by what is in it, refused_N by the refusal that a read meets.
 *
 * A header that no writer makes is laid out by hand, with all its front, as the payload of a frame at 1 Mbit/s:
 * scrambled in the same run and read from the payload's first chip on, it is the front of a long frame. */
#include "plain_frame.h"

#include <stdio.h>
#include <stdlib.h>
#include <string.h>

enum { CHIPS_MOST = 65536, BY_HAND = 6, UNUSABLE = 200 }; /* of a file that is too long; octets; no chip */

static uint8_t payload[64], chips[CHIPS_MOST];

static const struct {
    const char *name;
    uint64_t kind, rate, clock;
    size_t n;
} clean[] = {
    {"long_1", DSSS_LONG, DSSS_RATE_1, 0, 3},      {"long_2", DSSS_LONG, DSSS_RATE_2, 1, 5},
    {"long_5_5", DSSS_LONG, DSSS_RATE_5_5, 0, 7},  {"long_11", DSSS_LONG, DSSS_RATE_11, 1, 11},
    {"short_2", DSSS_SHORT, DSSS_RATE_2, 0, 13},   {"short_5_5", DSSS_SHORT, DSSS_RATE_5_5, 1, 17},
    {"short_11", DSSS_SHORT, DSSS_RATE_11, 0, 19},
};

static void save(const char *name, uint64_t kind, const uint8_t *from, size_t len)
{
    FILE *to = fopen(name, "wb");

    if (!to || fputc((int)kind, to) == EOF || fwrite(from, 1, len, to) != len || fclose(to) != 0) {
        fprintf(stderr, "recordings: cannot write %s\n", name);
        exit(1);
    }
}

/* Lays a frame out in the row and lost chips behind it, and answers its chips. */
static size_t lay(uint64_t kind, uint64_t rate, uint64_t clock, size_t n)
{
    return (size_t)dsss_write(kind, rate, 0, clock, payload, n, chips, sizeof chips).chips;
}

static void save_clean(void)
{
    for (size_t k = 0; k < sizeof clean / sizeof clean[0]; k++)
        save(clean[k].name, clean[k].kind, chips, lay(clean[k].kind, clean[k].rate, clean[k].clock, clean[k].n));
}

/* A symbol of 11 Mbit/s without chips is a tie: lead 0. Chips after the frame are not looked at, up to the longest file
 * that is taken, and one more. */
static void save_odd(void)
{
    size_t len = lay(DSSS_LONG, DSSS_RATE_11, 0, 20);
    memset(chips + DSSS_FRONT_LONG, DSSS_CHIP_LOST, CCK);
    save("lead_0", DSSS_LONG, chips, len);
    lay(DSSS_SHORT, DSSS_RATE_11, 0, 2);
    save("of_65536", DSSS_SHORT, chips, CHIPS_MOST - 1);
    save("of_65537", DSSS_SHORT, chips, CHIPS_MOST);
    save("of_1", DSSS_LONG, chips, 0);
}

/* The symbol of a row that begins at a chip, turned by a quarter. */
static void turn(uint8_t *symbol)
{
    for (size_t k = 0; k < BARKER; k++)
        symbol[k] = (uint8_t)((symbol[k] + 1) % 4);
}

static void save_spoiled(void)
{
    size_t len = lay(DSSS_LONG, DSSS_RATE_1, 0, 2);

    save("refused_1", 2, chips, len);
    save("refused_1_too", 255, chips, len);
    save("refused_8", DSSS_LONG, chips, DSSS_FRONT_LONG - 1);
    save("refused_16", DSSS_LONG, chips, len - 1);
    turn(chips + DSSS_FRONT_LONG + 8 * BARKER);
    save("refused_10_too", DSSS_LONG, chips, len);
    chips[len - 1] = UNUSABLE;
    save("refused_9_too", DSSS_LONG, chips, len);
    turn(chips + 50 * BARKER);
    save("refused_10", DSSS_LONG, chips, len);
    chips[60 * BARKER] = UNUSABLE;
    save("refused_9", DSSS_LONG, chips, len);
}

/* A long front with these numbers, and so many octets behind it. */
static void save_by_hand(const char *name, unsigned sfd, unsigned signal, unsigned service, unsigned length,
                         unsigned crc_off)
{
    uint32_t header = signal | service << 8 | (uint32_t)length << 16, crc = crc_of(header) ^ crc_off;
    uint8_t row[16 + 8 + BY_HAND];

    memset(row, 0xFF, 16);
    for (unsigned k = 0; k < 2; k++) {
        row[16 + k] = (uint8_t)(sfd >> 8 * k);
        row[22 + k] = (uint8_t)(crc >> 8 * k);
    }
    for (unsigned k = 0; k < 4; k++)
        row[18 + k] = (uint8_t)(header >> 8 * k);
    memcpy(row + 24, payload, BY_HAND);
    dsss_write(DSSS_LONG, DSSS_RATE_1, 0, 0, row, sizeof row, chips, sizeof chips);
    save(name, DSSS_LONG, chips + DSSS_FRONT_LONG, 88 * sizeof row);
}

int main(void)
{
    for (size_t k = 0; k < sizeof payload; k++)
        payload[k] = (uint8_t)(37 * k + 11);
    save_clean();
    save_odd();
    save_spoiled();
    save_by_hand("by_hand", 0xF3A0, DSSS_RATE_1, 0, 8 * BY_HAND, 0);
    save_by_hand("refused_11", 0xF3A1, DSSS_RATE_1, 0, 8 * BY_HAND, 0);
    save_by_hand("refused_12", 0xF3A0, DSSS_RATE_1, 0, 8 * BY_HAND, 1);
    save_by_hand("refused_13", 0xF3A0, DSSS_RATE_1 + 1, 0, 8 * BY_HAND, 0);
    save_by_hand("refused_14", 0xF3A0, DSSS_RATE_1, 1, 8 * BY_HAND, 0);
    save_by_hand("refused_15", 0xF3A0, DSSS_RATE_1, 0, 8 * BY_HAND + 1, 0);
    return 0;
}
