/* count.c: one call, made as often as asked, so that its instructions can be counted from outside.
 *
 *   count CALL KIND RATE OCTETS TIMES
 *
 * CALL is write, hard, soft, bytes, front, 1997 or refused_1997, KIND is long or short, RATE a rate code. The last two
 * read a long frame as the guides of 1997 do, and are refused with 13 if so named. The calls are those of the library,
 * or with -DOF_PLAIN those of plain C. With -DFIND a call is a find in one of the recordings of recordings.h, which
 * CALL names, and OCTETS are the offsets to try, RATE being of no use. With -DREPORT a call is an add of the frame to a
 * report, an add of an empty recording, a hard read of the frame with the room that an add gives it, or the report's
 * text, as CALL says: add, empty, read or text. With -DWHY a call asks why the frame is refused, which it is not, or is
 * a hard read of it, or the same of the frame with its CRC spoiled: why, read, why_crc or read_crc. With -DCOMPARE a
 * call compares the frame with the recording of pairs.h that CALL names, with room for just the chips that differ, or
 * is the two hard reads of both: equal, few, all, or these with _reads behind them. With -DSTORE a call is the one of
 * stores.h that CALL names, KIND, RATE and OCTETS being of no use. With -DCHOICE a call is the choice alone, of a block
 * of 64 symbols of 11 Mbit/s, by the recorder hard, soft or bytes. The rows are made and a call for one octet or
 * offset, the choice or the call of a store, is made first, whatever TIMES is: the difference of two runs with TIMES 0
 * and 1 is the instructions of one call, with nothing of the program's start. scripts/instructions.sh builds what it
 * needs and makes the two runs. */
#include "pairs.h"
#include "recordings.h"
#include "stores.h"
#include "bench_leaves.h"

#include <stdio.h>
#include <stdlib.h>
#include <string.h>

#if defined OF_PLAIN
#define OF(call) plain_##call
#define ELEVEN(...) plain_eleven(__VA_ARGS__)
#else
#define OF(call) dsss_##call
#define ELEVEN(...) timed_eleven(__VA_ARGS__)
#endif

static uint8_t payload[DSSS_PAYLOAD_MAX], chips[DSSS_CHIPS_MAX];

#ifdef FIND
enum { LEAST = 1 };

static uint64_t chips_of(size_t len)
{
    return len;
}

/* The recording that a call names; RECORDINGS if it names none. */
static size_t which(const char *name)
{
    size_t k = 0;

    while (k < RECORDINGS && strcmp(name, recordings[k]) != 0)
        k++;
    return k;
}

/* One find; whether it answers as it must. */
static int call(const char *name, uint64_t kind, uint64_t rate, size_t offsets, size_t len)
{
    (void)rate;
    return finds_right(which(name), offsets, OF(find)(kind, chips, len, offsets));
}

static uint64_t set_up(const char *name, uint64_t kind, uint64_t rate, size_t offsets)
{
    (void)rate;
    return which(name) < RECORDINGS ? lay_recording(which(name), kind, offsets, chips) : 0;
}
#elif defined STORE
enum { LEAST = 1 };

static size_t which; /* of the calls; STORES if none is named */

/* A store stands where chips do: its octets are counted. */
static uint64_t chips_of(size_t len)
{
    return len;
}

/* One call; whether it answers as it must. */
static int call(const char *name, uint64_t kind, uint64_t rate, size_t n, size_t len)
{
    (void)name;
    (void)n;
    switch (which) {
    case STORE_CHANGE:
        return OF(store_change)(chips, len, DSSS_TAG_PHASE, 1) == 0;
    case STORE_WRITE:
        return OF(store_write)(kind, rate, 1, chips, len) == 0;
    default:
        return OF(store_read)(chips, len).number == stores[which].number;
    }
}

static uint64_t set_up(const char *name, uint64_t kind, uint64_t rate, size_t n)
{
    (void)kind;
    (void)rate;
    (void)n;
    for (which = 0; which < STORES; which++)
        if (strcmp(name, stores[which].name) == 0)
            return lay_store(which, chips);
    return 0;
}
#else
static float i_row[DSSS_CHIPS_MAX], q_row[DSSS_CHIPS_MAX];
static int8_t bytes[2 * DSSS_CHIPS_MAX];

/* A soft recording: each chip 0.9 strong, with an error that changes from chip to chip. */
static void record_soft(size_t len)
{
    static const float level[4] = {0.9f, 0.0f, -0.9f, 0.0f};

    for (size_t k = 0; k < len; k++) {
        float off = (float)(int)(k * 37 % 256) / 1024.0f - 0.125f;
        i_row[k] = level[chips[k]] + off;
        q_row[k] = level[(chips[k] + 3) % 4] - off;
    }
}

/* A recording of signed bytes: each chip 58 strong, a full one being 64, with an error as above. */
static void record_bytes(size_t len)
{
    static const int level[4] = {58, 0, -58, 0};

    for (size_t k = 0; k < len; k++) {
        int off = (int)(k * 37 % 17) - 8;
        bytes[2 * k] = (int8_t)(level[chips[k]] + off);
        bytes[2 * k + 1] = (int8_t)(level[(chips[k] + 3) % 4] - off);
    }
}

#ifdef CHOICE
enum { LEAST = 64, BLOCK = 8 * LEAST }; /* octets, and the chips looked at */

static uint64_t chips_of(size_t len)
{
    (void)len;
    return BLOCK;
}

/* One choice; whether the frame has a block and a word was chosen. */
static int call(const char *name, uint64_t kind, uint64_t rate, size_t n, size_t len)
{
    volatile uint64_t word; /* keeps what is computed from being dropped */
    size_t at = kind == DSSS_SHORT ? DSSS_FRONT_SHORT : DSSS_FRONT_LONG, left = len - at;
    uint64_t recorder = strcmp(name, "bytes") == 0 ? 2 : strcmp(name, "soft") == 0;

    if (rate != DSSS_RATE_11 || n < LEAST)
        return 0;
    word = ELEVEN(recorder, chips + at, left, bytes + 2 * at, 2 * left, i_row + at, left, q_row + at, left);
    return word < 256;
}
#elif defined REPORT
enum { LEAST = 1 };

static uint8_t octets[DSSS_PAYLOAD_MAX], text[DSSS_TEXT_MAX];

static uint64_t chips_of(size_t len)
{
    return len;
}

/* One call; whether it counted, read or spelled what it should. */
static int call(const char *name, uint64_t kind, uint64_t rate, size_t n, size_t len)
{
    (void)rate;
    (void)n;
    if (strcmp(name, "read") == 0)
        return OF(read_hard)(kind, chips, len, octets, sizeof octets).used == len;
    if (strcmp(name, "text") == 0)
        return OF(report_text)(month, text, sizeof text).number == 0;
    if (strcmp(name, "empty") == 0)
        return OF(report_add)(month, kind, NULL, 0).report.refused[DSSS_REFUSED_FRONT] > month.refused[8];
    return OF(report_add)(month, kind, chips, len).report.airtime > month.airtime;
}
#elif defined WHY
enum { LEAST = 1 };

static uint8_t octets[DSSS_PAYLOAD_MAX];

static uint64_t chips_of(size_t len)
{
    return len;
}

/* One call; whether it is refused with 12 if the CRC is spoiled, and else not at all. */
static int call(const char *name, uint64_t kind, uint64_t rate, size_t n, size_t len)
{
    uint64_t number = strstr(name, "crc") ? DSSS_REFUSED_CRC : 0;

    (void)rate;
    if (strncmp(name, "read", 4) == 0)
        return OF(read_hard)(kind, chips, len, octets, n).number == number;
    return OF(why)(kind, chips, len, n).number == number;
}
#elif defined COMPARE
enum { LEAST = 1 };

static uint8_t second[DSSS_CHIPS_MAX], octets[DSSS_PAYLOAD_MAX], octets_b[DSSS_PAYLOAD_MAX];
static uint64_t chip_row[DSSS_LIST_PLACES(DSSS_CHIPS_MAX)], octet_row[DSSS_LIST_PLACES(DSSS_PAYLOAD_MAX)];
static size_t differ; /* chips */

static uint64_t chips_of(size_t len)
{
    return len;
}

/* The pair that a call names; PAIRS if it names none. */
static size_t which(const char *name)
{
    size_t k = 0;

    while (k < PAIRS && strncmp(name, second_recordings[k], strlen(second_recordings[k])) != 0)
        k++;
    return k;
}

/* One call; whether it accepts both recordings and tells how many chips differ. */
static int call(const char *name, uint64_t kind, uint64_t rate, size_t n, size_t len)
{
    (void)rate;
    if (strstr(name, "reads"))
        return OF(read_hard)(kind, chips, len, octets, n).used == len
               && OF(read_hard)(kind, second, len, octets_b, n).used == len;
    dsss_compared compared = OF(compare)(kind, chips, len, second, len, chip_row, DSSS_LIST_PLACES(differ), octet_row,
                                         0, octets, n, octets_b, n);
    return compared.a.used == len && compared.b.used == len && compared.chips == differ;
}
#else
enum { LEAST = 1 };

static uint8_t octets[DSSS_PAYLOAD_MAX];

/* The chips that one call says it handled. */
static uint64_t handled(const char *name, uint64_t kind, uint64_t rate, size_t n, size_t len)
{
    if (strcmp(name, "write") == 0)
        return OF(write)(kind, rate, 0, 0, payload, n, chips, len).chips;
    if (strcmp(name, "hard") == 0)
        return OF(read_hard)(kind, chips, len, octets, n).used;
    if (strcmp(name, "1997") == 0)
        return OF(read_1997)(chips, len, octets, n).used;
    if (strcmp(name, "refused_1997") == 0)
        return OF(read_1997)(chips, len, octets, n).number == DSSS_REFUSED_SIGNAL ? len : 0;
    if (strcmp(name, "front") == 0)
        return OF(read_front)(kind, chips, len).used;
    if (strcmp(name, "bytes") == 0)
        return OF(read_bytes)(kind, bytes, 2 * len, octets, n).used;
    return OF(read_soft)(kind, i_row, len, q_row, len, octets, n).used;
}

static uint64_t chips_of(size_t len)
{
    return len;
}

/* One call; whether it handled the whole frame. */
static int call(const char *name, uint64_t kind, uint64_t rate, size_t n, size_t len)
{
    return handled(name, kind, rate, n, len) == len;
}
#endif

static uint64_t set_up(const char *name, uint64_t kind, uint64_t rate, size_t n)
{
    uint64_t len = plain_write(kind, rate, 0, 0, payload, n, chips, sizeof chips).chips;

    if (strcmp(name, "soft") == 0)
        record_soft(len);
    if (strcmp(name, "bytes") == 0)
        record_bytes(len);
    if (strstr(name, "crc"))
        spoil_crc(kind, chips);
#ifdef COMPARE
    if (which(name) == PAIRS)
        return 0;
    differ = lay_second(which(name), chips, len, second);
#endif
    return len;
}
#endif

int main(int argc, char **argv)
{
    if (argc != 6) {
        fputs("usage: count CALL long|short RATE OCTETS TIMES\n", stderr);
        return 2;
    }
    uint64_t kind = strcmp(argv[2], "short") == 0 ? DSSS_SHORT : DSSS_LONG;
    uint64_t rate = (uint64_t)atoi(argv[3]);
    size_t n = (size_t)atoi(argv[4]);

    for (size_t k = 0; k < sizeof payload; k++)
        payload[k] = (uint8_t)(k * k / 7 + 91 * k);
    uint64_t len = set_up(argv[1], kind, rate, LEAST);
    if (len == 0 || !call(argv[1], kind, rate, LEAST, len))
        return 1;
    len = set_up(argv[1], kind, rate, n);
    for (int times = atoi(argv[5]); times > 0; times--)
        if (len == 0 || !call(argv[1], kind, rate, n, len))
            return 1;
    printf("%llu\n", (unsigned long long)chips_of(len));
    return 0;
}
