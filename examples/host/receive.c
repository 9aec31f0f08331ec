/* receive.c: a caption read as its chips arrive, and shown as it grows.
 *
 * The board hands over its chips in batches. The host opens a receiver, feeds it each batch, and closes it when no more
 * chips come. After each batch the buffer holds the octets whose chips have all come, and then zeros. A caption has no
 * octet 0, so the text so far goes up to the first 0: the visitor reads along.
 * WHAT IS SHOWN BEFORE THE CLOSE MAY STILL BE TAKEN BACK. When a refusal is certain the buffer is cleared at once, and
 * so is the screen. Which refusal it is, and at which chip, the close tells: that line is the fitter's. That a
 * recording ends too early is known only at the close; until then the text stands.
 * The fitter knows what was sent, and the host checks every answer. After each batch the buffer must hold just so much
 * of the caption. At the close record and buffer must be those of one read of all the chips. Octets are shown only if
 * they are the caption's. */
#include "receive.h"
#include "dsss.h"

#include <inttypes.h>
#include <stdio.h>
#include <string.h>

enum { CAPTION_MAX = 64, GUARD = 32, GUARD_OCTET = 0x5C };

/* The chips of a batch of the board. */
enum { BATCH = 512 };

enum { KIND = DSSS_SHORT, RATE = DSSS_RATE_2, FRONT = DSSS_FRONT_SHORT };

#define FRAME_MAX DSSS_FRAME_CHIPS(KIND, RATE, CAPTION_MAX)

/* A chip behind every frame. */
#define NONE FRAME_MAX

/* One recording: its unusable chip, how many of its last chips do not come, and what the close answers. */
struct arriving {
    const char *what;
    size_t unusable, missing;
    uint64_t number;
};

static const struct arriving recordings[] = {
    {"as it was sent", NONE, 0, 0},
    {"with an unusable octet at chip 2300", 2300, 0, DSSS_REFUSED_CHIP},
    {"without its last chip", NONE, 1, DSSS_REFUSED_CUT},
};

static struct {
    uint8_t before[GUARD], row[FRAME_MAX], after[GUARD];
} chips;

static struct {
    uint8_t before[GUARD];
    dsss_receiver receiver;
    uint8_t after[GUARD];
} lent;

/* What the receiver reads, and what one read of all the chips does. */
static struct octets {
    uint8_t before[GUARD], row[CAPTION_MAX], after[GUARD];
} octets, at_once;

static int stand(const uint8_t *guards)
{
    int changed = 0;

    for (size_t k = 0; k < GUARD; k++)
        changed |= guards[k] ^ GUARD_OCTET;
    return !changed;
}

int receive_guards_stand(void)
{
    return stand(chips.before) && stand(chips.after) && stand(lent.before) && stand(lent.after)
           && stand(octets.before) && stand(octets.after) && stand(at_once.before) && stand(at_once.after);
}

/* Whether the buffer holds so many octets of the caption and then zeros. */
static int holds(const char *caption, size_t n)
{
    int old = 0;

    for (size_t k = n; k < CAPTION_MAX; k++)
        old |= octets.row[k];
    return !old && memcmp(octets.row, caption, n) == 0;
}

/* How many octets of the caption must be there once so many chips of the recording are fed. */
static size_t due(const struct arriving *recording, size_t fed)
{
    if (fed < FRONT || fed > recording->unusable)
        return 0;
    return (fed - FRONT) / DSSS_OCTET_CHIPS(RATE);
}

/* Shows the text so far, which goes up to the first 0; how many octets it has. */
static size_t show_so_far(size_t fed, size_t before)
{
    size_t n = 0;

    while (n < CAPTION_MAX && octets.row[n] != 0)
        n++;
    printf("    %zu chips, %zu octets", fed, n);
    if (n > 0)
        printf(": \"%.*s\"", (int)n, (const char *)octets.row);
    puts(n < before ? ": the screen is cleared" : "");
    return n;
}

/* Feeds so many chips, batch after batch; whether every answer is the one expected. */
static int feed_all(const struct arriving *recording, const char *caption, size_t len)
{
    size_t shown = 0;

    for (size_t fed = 0; fed < len;) {
        size_t batch = len - fed < BATCH ? len - fed : BATCH;
        uint64_t number = dsss_feed(&lent.receiver, octets.row, CAPTION_MAX, chips.row + fed, batch);
        fed += batch;
        if (number != 0 || !holds(caption, due(recording, fed))) {
            printf("%s: THE BATCH up to chip %zu answers %" PRIu64 ", or the buffer is not as expected\n",
                   recording->what, fed, number);
            return 0;
        }
        shown = show_so_far(fed, shown);
    }
    return 1;
}

/* The answer of the close, which was found to be as expected: for the visitor, or for the fitter. */
static void tell(dsss_record record)
{
    if (record.number == 0) {
        printf("    closed, %" PRIu64 " octets: \"%.*s\"\n", record.n, (int)record.n, (const char *)octets.row);
        return;
    }
    printf("    closed, the screen is clear; for the fitter: refused, %" PRIu64, record.number);
    if (record.number == DSSS_REFUSED_CHIP)
        printf(", at chip %" PRIu64, record.place);
    printf(". %s\n", dsss_sentence(record.number));
}

/* Closes the receiver; whether record and buffer are those of one read of all the chips, with the number expected. */
static int close_and_tell(const struct arriving *recording, const char *caption, size_t len)
{
    dsss_record record = dsss_close(&lent.receiver, octets.row, CAPTION_MAX);
    dsss_record whole = dsss_read_hard(KIND, chips.row, len, at_once.row, CAPTION_MAX);
    uint64_t place = recording->number == DSSS_REFUSED_CHIP ? recording->unusable : 0;

    if (record.number != recording->number || record.place != place || memcmp(&record, &whole, sizeof whole) != 0
        || memcmp(octets.row, at_once.row, CAPTION_MAX) != 0 || !holds(caption, record.n)) {
        printf("%s: THE CLOSE answers %" PRIu64 " at chip %" PRIu64 ", or it is not as expected\n", recording->what,
               record.number, record.place);
        return 0;
    }
    tell(record);
    return 1;
}

/* A batch that comes after the close; whether it is refused with 20, and receiver and buffer stay as they were. */
static int feed_too_late(const char *caption)
{
    dsss_receiver before = lent.receiver;
    uint64_t number = dsss_feed(&lent.receiver, octets.row, CAPTION_MAX, chips.row, BATCH);

    if (number != DSSS_REFUSED_RECEIVER || memcmp(&before, &lent.receiver, sizeof before) != 0
        || !holds(caption, strlen(caption))) {
        printf("THE BATCH after the close answers %" PRIu64 ", or it changes something\n", number);
        return 0;
    }
    printf("    a batch after the close: refused, %" PRIu64 ". %s The caption stays.\n", number, dsss_sentence(number));
    return 1;
}

/* One recording from the open to the close; whether every answer is the one expected. Before the open the buffer is
 * full of old octets. */
static int receive(const struct arriving *recording, const char *caption)
{
    dsss_written frame = dsss_write(KIND, RATE, 0, 0, (const uint8_t *)caption, strlen(caption), chips.row, FRAME_MAX);
    if (frame.number != 0 || frame.chips > FRAME_MAX) {
        printf("%s: NOT WRITTEN, %" PRIu64 ". %s\n", recording->what, frame.number, dsss_sentence(frame.number));
        return 0;
    }
    size_t len = (size_t)frame.chips - recording->missing;
    if (recording->unusable < len)
        chips.row[recording->unusable] = 200;
    puts(recording->what);
    memset(octets.row, 'x', CAPTION_MAX);
    uint64_t number = dsss_open(&lent.receiver, KIND, octets.row, CAPTION_MAX);
    if (number != 0 || !holds(caption, 0)) {
        printf("%s: THE OPEN answers %" PRIu64 ", or leaves old octets\n", recording->what, number);
        return 0;
    }
    if (!feed_all(recording, caption, len) || !close_and_tell(recording, caption, len))
        return 0;
    return recording->number != 0 || feed_too_late(caption);
}

int receive_in_batches(const char *caption)
{
    int expected = 1;

    memset(&chips, GUARD_OCTET, sizeof chips);
    memset(&lent, GUARD_OCTET, sizeof lent);
    memset(&octets, GUARD_OCTET, sizeof octets);
    memset(&at_once, GUARD_OCTET, sizeof at_once);
    printf("\nA caption as its chips arrive, %d at a time: short, 2 Mbit/s\n", BATCH);
    for (size_t k = 0; k < sizeof recordings / sizeof recordings[0]; k++)
        expected &= receive(&recordings[k], caption);
    return expected;
}
