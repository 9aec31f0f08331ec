/* guides.c: three captions, and what a guide of 1997 makes of each.
 *
 * The oldest guides, of 1997, know only the long preamble, 1 and 2 Mbit/s, and a SERVICE of 0. The fitter sends three
 * captions over the table's link, and has each recording read as such a guide reads it. The third is sent at 5.5
 * Mbit/s with the clock bit. The guide refuses it, and tells only LENGTH: for how many microseconds the payload takes
 * the air. A slower rate alone does not help: the guide refuses the clock bit too. The fitter sends the caption once
 * more, as these guides can read it: at 1 or 2 Mbit/s, without the clock bit.
 * NOTHING IS SHOWN OF A BUFFER AFTER A REFUSAL. It holds zeros, and the host checks this, as it checks every answer.
 * The fitter knows what was sent: octets are shown only if they are the caption's. */
#include "guides.h"
#include "dsss.h"

#include <inttypes.h>
#include <stdio.h>
#include <string.h>

enum { CAPTION_MAX = 64, GUARD = 32, GUARD_OCTET = 0x5C };

#define FRAME_MAX DSSS_FRAME_CHIPS(DSSS_LONG, DSSS_RATE_1, CAPTION_MAX)

/* One caption sent: at which rate, with the clock bit or without, and what a guide of 1997 answers. */
struct sending {
    const char *what;
    size_t caption;
    uint64_t rate, clock, number;
};

static const struct sending sendings[] = {
    {"the first, at 1 Mbit/s", 0, DSSS_RATE_1, 0, 0},
    {"the second, at 2 Mbit/s", 1, DSSS_RATE_2, 0, 0},
    {"the third, at 5.5 Mbit/s with the clock bit", 2, DSSS_RATE_5_5, 1, DSSS_REFUSED_SIGNAL},
    {"again, at 2 Mbit/s with the clock bit", 2, DSSS_RATE_2, 1, DSSS_REFUSED_SERVICE},
    {"once more, at 2 Mbit/s without it", 2, DSSS_RATE_2, 0, 0},
};

/* The recording, what the guide reads from it, and what our own reader does. */
static struct {
    uint8_t before[GUARD], row[FRAME_MAX], after[GUARD];
} recording;

static struct octets {
    uint8_t before[GUARD], row[CAPTION_MAX], after[GUARD];
} guides, ours;

static int stand(const uint8_t *guards)
{
    int changed = 0;

    for (size_t k = 0; k < GUARD; k++)
        changed |= guards[k] ^ GUARD_OCTET;
    return !changed;
}

int guides_guards_stand(void)
{
    return stand(recording.before) && stand(recording.after) && stand(guides.before) && stand(guides.after)
           && stand(ours.before) && stand(ours.after);
}

/* Whether the buffer holds so many octets of the text and then zeros. */
static int holds(const struct octets *octets, const char *text, size_t n)
{
    int old = 0;

    for (size_t k = n; k < CAPTION_MAX; k++)
        old |= octets->row[k];
    return !old && memcmp(octets->row, text, n) == 0;
}

/* Whether our own reader reads the caption as it was sent. A payload takes the air for a microsecond for every 11 chips
 * of its own, rounded up: that is the true LENGTH. */
static int read_as_sent(const struct sending *sent, const char *caption, uint64_t chips, dsss_record record)
{
    size_t n = strlen(caption);

    return record.number == 0 && record.place == 0 && record.rate == sent->rate && record.clock == sent->clock
           && record.n == n && record.used == chips && record.length == (chips - DSSS_FRONT_LONG + 10) / 11
           && holds(&ours, caption, n);
}

/* Whether the guide answers as it must, beside our own reader: the same record and caption, or, refused, number and
 * LENGTH, all else 0, and only zeros in the buffer. */
static int guide_answers(const struct sending *sent, const char *caption, dsss_record record, dsss_record own)
{
    dsss_record refused = {sent->number, 0, 0, own.length, 0, 0, 0, 0, 0};

    if (sent->number == 0)
        return memcmp(&record, &own, sizeof own) == 0 && holds(&guides, caption, strlen(caption));
    return memcmp(&record, &refused, sizeof refused) == 0 && holds(&guides, "", 0);
}

/* An answer that was found to be as expected, in words for the fitter. After a refusal the caption is that of our own
 * reader. */
static void tell(const struct sending *sent, dsss_record record, dsss_record own)
{
    if (record.number == 0) {
        printf("%s: \"%.*s\"\n    LENGTH %" PRIu64 " microseconds\n", sent->what, (int)record.n,
               (const char *)guides.row, record.length);
        return;
    }
    int rate = record.number == DSSS_REFUSED_SIGNAL;
    printf("%s: refused with %" PRIu64 ", nothing is shown. The guide does not know %s.\n", sent->what, record.number,
           rate ? "this rate" : "the clock bit");
    printf("    LENGTH %" PRIu64 " microseconds; our own reader reads \"%.*s\"\n", record.length, (int)own.n,
           (const char *)ours.row);
    printf("    Send it %swithout the clock bit.\n", rate ? "at 1 or 2 Mbit/s, " : "");
}

/* Sends a caption and reads it twice, as a guide of 1997 and as our own reader does; whether all is as expected. Before
 * the reads both buffers are full of old octets. */
static int send_and_tell(const struct sending *sent, const char *caption)
{
    size_t n = strlen(caption);
    dsss_written frame = dsss_write(DSSS_LONG, sent->rate, 0, sent->clock, (const uint8_t *)caption, n, recording.row,
                                    FRAME_MAX);
    if (frame.number != 0) {
        printf("%s: NOT WRITTEN, %" PRIu64 ". %s\n", sent->what, frame.number, dsss_sentence(frame.number));
        return 0;
    }
    if (frame.chips != DSSS_FRAME_CHIPS(DSSS_LONG, sent->rate, n)) {
        printf("%s: WRITTEN with %" PRIu64 " chips, which are not the frame's\n", sent->what, frame.chips);
        return 0;
    }
    memset(guides.row, 'x', CAPTION_MAX);
    memset(ours.row, 'x', CAPTION_MAX);
    dsss_record record = dsss_read_1997(recording.row, frame.chips, guides.row, CAPTION_MAX);
    dsss_record own = dsss_read_hard(DSSS_LONG, recording.row, frame.chips, ours.row, CAPTION_MAX);
    if (!read_as_sent(sent, caption, frame.chips, own)) {
        printf("%s: OUR OWN READER does not read what was sent; its number is %" PRIu64 "\n", sent->what, own.number);
        return 0;
    }
    if (!guide_answers(sent, caption, record, own)) {
        printf("%s: THE GUIDE's record or octets are not as expected; its number is %" PRIu64 ", where %" PRIu64
               " is due, its LENGTH %" PRIu64 "\n",
               sent->what, record.number, sent->number, record.length);
        return 0;
    }
    tell(sent, record, own);
    return 1;
}

int hear_as_1997(const char *const captions[3])
{
    int expected = 1;

    memset(&recording, GUARD_OCTET, sizeof recording);
    memset(&guides, GUARD_OCTET, sizeof guides);
    memset(&ours, GUARD_OCTET, sizeof ours);
    puts("\nA guide of 1997: what it makes of three captions with the long preamble");
    for (size_t k = 0; k < sizeof sendings / sizeof sendings[0]; k++)
        expected &= send_and_tell(&sendings[k], captions[sendings[k].caption]);
    return expected;
}
