/* host.c: the program of one gallery table, over the library of dsss.h.
 *
 * A visitor turns a skull with one finger, and at each quarter turn the table fetches a caption
 * by radio. Here the frames go from the writer to the reader in memory: at every kind and rate,
 * from other recorders, with the clock bit, then spoiled, then cut short. Then the host does as it
 * does at the table: it asks what is coming, tells the fitter of it and of how the payload's chips came
 * through, sets aside just as many octets, and only then reads. Of each caption the fitter is told how
 * clearly its symbols were won, so that an aerial is moved before captions fail; and captions come back with
 * every symbol spoiled, as far as a frame is promised to stand it. In recordings that begin anywhere it has
 * the front found, and shows what a read from the offset found is worth. Of a recording that is refused it
 * says why, and what to do. Of two receivers over one table it tells where their recordings differ
 * (compare.c), and of three captions what a guide of 1997 makes of them (guides.c). At the end of the month
 * it has a report of its recordings. The settings of its radio it keeps in a store (settings.c), and writes a
 * caption with those that it reads from there. What comes from the air may be any octets, so it is shown
 * escaped. A caption of an earlier exhibition must never be seen again: before each read the octet buffer is
 * full of one, and after it what is left of it is counted. All memory is in the static rows below, in
 * compare.c, in guides.c and in settings.c; those that are lent for writing stand between guard octets, which
 * must stay as they were. Its status is 1 if they do not, if a guide of 1997 does not answer as expected, or
 * if the settings cannot be saved in a file or read from it. */
#include "compare.h"
#include "dsss.h"
#include "guides.h"
#include "settings.h"

#include <inttypes.h>
#include <stdio.h>
#include <string.h>

enum { CAPTION_MAX = 64, CHIPS_MAX = DSSS_FRONT_LONG + 88 * CAPTION_MAX, ASIDE_MAX = 224 };
enum { GUARD = 32, GUARD_OCTET = 0x5C };

/* A lead of two full chips or less: one more chip lost may give another caption. */
enum { LEAD_LOW = 2 * DSSS_FULL_CHIP };

/* Lost chips before a frame, where a recording begins anywhere. */
enum { LOST = 345 };

/* Recordings that are kept for the month's report. */
enum { KEPT = 6 };

static const char *const captions[4] = {
    "Cave bear, from the front. The canines are worn blunt.",
    "Cave bear, left side. Another bear made the notch.",
    "Cave bear, from behind. Here sat the neck.",
    "Cave bear, right side. A hundred cubs, one adult skull.",
};

static const struct {
    uint64_t kind, rate;
    const char *name;
} ways[] = {
    {DSSS_LONG, DSSS_RATE_1, "long, 1 Mbit/s"},
    {DSSS_LONG, DSSS_RATE_2, "long, 2 Mbit/s"},
    {DSSS_LONG, DSSS_RATE_5_5, "long, 5.5 Mbit/s"},
    {DSSS_LONG, DSSS_RATE_11, "long, 11 Mbit/s"},
    {DSSS_SHORT, DSSS_RATE_2, "short, 2 Mbit/s"},
    {DSSS_SHORT, DSSS_RATE_5_5, "short, 5.5 Mbit/s"},
    {DSSS_SHORT, DSSS_RATE_11, "short, 11 Mbit/s"},
};

static struct {
    uint8_t before[GUARD], row[CHIPS_MAX], after[GUARD];
} chips;

static struct {
    uint8_t before[GUARD], row[CAPTION_MAX], after[GUARD];
} octets;

/* Captions one behind the other, each in just the octets that were set aside for it. */
static struct {
    uint8_t before[GUARD], row[ASIDE_MAX], after[GUARD];
} aside;

static size_t aside_used;

static struct {
    uint8_t before[GUARD], row[DSSS_TEXT_MAX], after[GUARD];
} text;

/* The recordings kept, as a list: kinds and rows. */
static struct {
    uint8_t rows[KEPT][CHIPS_MAX];
    uint64_t kinds[KEPT];
    dsss_chips list[KEPT];
    size_t len;
} kept;

static float i_row[CHIPS_MAX], q_row[CHIPS_MAX];
static int8_t bytes[2 * CHIPS_MAX];

static void set_guards(int octet)
{
    memset(chips.before, octet, GUARD);
    memset(chips.after, octet, GUARD);
    memset(octets.before, octet, GUARD);
    memset(octets.after, octet, GUARD);
    memset(aside.before, octet, GUARD);
    memset(aside.after, octet, GUARD);
    memset(text.before, octet, GUARD);
    memset(text.after, octet, GUARD);
}

static int guards_stand(void)
{
    int changed = 0;

    for (size_t k = 0; k < GUARD; k++)
        changed |= (chips.before[k] ^ GUARD_OCTET) | (chips.after[k] ^ GUARD_OCTET)
                   | (octets.before[k] ^ GUARD_OCTET) | (octets.after[k] ^ GUARD_OCTET)
                   | (aside.before[k] ^ GUARD_OCTET) | (aside.after[k] ^ GUARD_OCTET)
                   | (text.before[k] ^ GUARD_OCTET) | (text.after[k] ^ GUARD_OCTET);
    return !changed;
}

/* Writes a caption's frame to the chip row behind so many lost chips; `clock` is 0 if its sender's chip
 * clock and carrier do not share an oscillator. */
static dsss_written send_behind(size_t lost, uint64_t kind, uint64_t rate, uint64_t clock, const char *caption)
{
    const uint8_t *payload = (const uint8_t *)caption;

    memset(chips.row, DSSS_CHIP_LOST, lost);
    return dsss_write(kind, rate, 0, clock, payload, strlen(caption), chips.row + lost, CHIPS_MAX - lost);
}

static dsss_written send_caption(uint64_t kind, uint64_t rate, uint64_t clock, const char *caption)
{
    return send_behind(0, kind, rate, clock, caption);
}

static void fill_with_old(void)
{
    static const char old[] = "Trilobites of the upper hall. ";

    for (size_t k = 0; k < CAPTION_MAX; k++)
        octets.row[k] = (uint8_t)old[k % (sizeof old - 1)];
}

/* The octets past the payload that are not 0. */
static size_t old_octets(uint64_t n)
{
    size_t old = 0;

    for (size_t k = (size_t)n; k < CAPTION_MAX; k++)
        old += octets.row[k] != 0;
    return old;
}

/* Octets from the air, as text: what is no printable ASCII character, and \ and ", as \xNN. */
static void show_octets(const uint8_t *row, uint64_t n)
{
    for (uint64_t k = 0; k < n; k++)
        if (row[k] >= ' ' && row[k] <= '~' && row[k] != '\\' && row[k] != '"')
            putchar(row[k]);
        else
            printf("\\x%02X", row[k]);
}

/* How clearly the symbol was won that came closest to another, in words for the fitter. */
static void show_lead(uint64_t kind, dsss_record record)
{
    printf("    smallest lead %.2f chips, at symbol %" PRIu64 ", in the %s%s\n",
           (double)record.lead / DSSS_FULL_CHIP, record.symbol,
           record.symbol < DSSS_FRONT_SYMBOLS(kind) ? "front" : "payload",
           record.lead <= LEAD_LOW ? ": move the aerial" : "");
}

static void show(const char *what, uint64_t kind, dsss_record record)
{
    if (record.number == 0) {
        printf("%s: \"", what);
        show_octets(octets.row, record.n);
        puts("\"");
    } else
        printf("%s: refused, %" PRIu64 ". %s\n", what, record.number,
               dsss_sentence(record.number));
    printf("    place %" PRIu64 ", LENGTH %" PRIu64 ", %" PRIu64 " octets, %" PRIu64
           " chips used, %zu old octets left",
           record.place, record.length, record.n, record.used, old_octets(record.n));
    if (record.clock != 0)
        printf(", clock %" PRIu64, record.clock);
    puts("");
    if (record.number == 0)
        show_lead(kind, record);
}

/* What is read from a chip of the row on. */
static void show_from(const char *what, uint64_t kind, uint64_t from, uint64_t len)
{
    fill_with_old();
    show(what, kind, dsss_read_hard(kind, chips.row + from, len - from, octets.row, CAPTION_MAX));
}

static void show_hard(const char *what, uint64_t kind, uint64_t len)
{
    show_from(what, kind, 0, len);
}

/* The same frame as a soft recorder gives it: weak, and with an offset on I. */
static void show_soft(const char *what, uint64_t kind, uint64_t len)
{
    static const float level[4] = {0.5f, 0.0f, -0.5f, 0.0f};

    for (size_t k = 0; k < len; k++) {
        i_row[k] = level[chips.row[k]] + 0.125f;
        q_row[k] = level[(chips.row[k] + 3) % 4];
    }
    fill_with_old();
    show(what, kind, dsss_read_soft(kind, i_row, len, q_row, len, octets.row, CAPTION_MAX));
}

/* The same frame as the spare board records it: signed bytes, I and Q in turn, chips of 40 where a
 * full one is 64, and each a little off. */
static void record_bytes(uint64_t len)
{
    static const int level[4] = {40, 0, -40, 0};

    for (size_t k = 0; k < len; k++) {
        int off = (int)(k * 7 % 13) - 6;
        bytes[2 * k] = (int8_t)(level[chips.row[k]] + off);
        bytes[2 * k + 1] = (int8_t)(level[(chips.row[k] + 3) % 4] - off);
    }
}

static void show_bytes(const char *what, uint64_t kind, uint64_t len)
{
    fill_with_old();
    show(what, kind, dsss_read_bytes(kind, bytes, len, octets.row, CAPTION_MAX));
}

static void every_way(void)
{
    puts("Every kind and rate");
    for (size_t k = 0; k < sizeof ways / sizeof ways[0]; k++) {
        dsss_written frame = send_caption(ways[k].kind, ways[k].rate, 0, captions[k % 4]);
        show_hard(ways[k].name, ways[k].kind, frame.chips);
    }
    puts("\nA soft recording");
    show_soft("short, 11 Mbit/s, weak", DSSS_SHORT,
              send_caption(DSSS_SHORT, DSSS_RATE_11, 0, captions[3]).chips);
}

static void spare_board(void)
{
    puts("\nThe spare board, which records signed bytes");
    uint64_t len = send_caption(DSSS_LONG, DSSS_RATE_5_5, 0, captions[1]).chips;
    record_bytes(len);
    show_bytes("long, 5.5 Mbit/s, weak", DSSS_LONG, 2 * len);
    show_bytes("without its last byte", DSSS_LONG, 2 * len - 1);
}

/* The clock bit comes back with the text; a refused read tells nothing of it. Any number but 0 is a yes. */
static void locked_clocks(void)
{
    puts("\nChip clock and carrier from one oscillator");
    uint64_t len = send_caption(DSSS_LONG, DSSS_RATE_2, 1, captions[2]).chips;
    show_hard("long, 2 Mbit/s", DSSS_LONG, len);
    len = send_caption(DSSS_SHORT, DSSS_RATE_11, 256, captions[0]).chips;
    show_soft("short, 11 Mbit/s, weak", DSSS_SHORT, len);
    record_bytes(len);
    show_bytes("the same by the spare board", DSSS_SHORT, 2 * len);
    show_hard("the same without its last chip", DSSS_SHORT, len - 1);
}

static void spoiled(void)
{
    puts("\nSpoiled recordings");
    uint64_t len = send_caption(DSSS_SHORT, DSSS_RATE_11, 0, captions[3]).chips;
    for (uint64_t k = 0; k < len; k += 11)
        chips.row[k] = DSSS_CHIP_LOST;
    show_hard("every eleventh chip lost", DSSS_SHORT, len);
    chips.row[1234] = 200;
    show_hard("an unusable octet at chip 1234", DSSS_SHORT, len);

    len = send_caption(DSSS_LONG, DSSS_RATE_2, 0, captions[1]).chips;
    for (uint64_t k = 550; k < 561; k++)
        chips.row[k] = (uint8_t)((chips.row[k] + 1) % 4);
    show_hard("the symbol at chip 550 turned by a quarter", DSSS_LONG, len);
}

/* The lead falls while the caption is still right, and is 0 where it no longer is. */
static void aerial_out_of_place(void)
{
    static const char *const lost[4] = {"one chip of each symbol lost", "two", "three", "four"};

    puts("\nAn aerial out of place");
    uint64_t len = send_caption(DSSS_SHORT, DSSS_RATE_11, 0, captions[2]).chips;
    for (size_t more = 0; more < 4; more++) {
        for (uint64_t k = DSSS_FRONT_SHORT + 2 * more; k < len; k += 8)
            chips.row[k] = DSSS_CHIP_LOST;
        show_hard(lost[more], DSSS_SHORT, len);
    }
}

/* Spoils every symbol of so many chips: its first chips are turned by a quarter, the next ones lost. */
static void spoil_each(uint64_t from, uint64_t to, uint64_t symbol, uint64_t wrong, uint64_t lost)
{
    for (uint64_t k = from; k < to; k++)
        if ((k - from) % symbol < wrong)
            chips.row[k] = (uint8_t)((chips.row[k] + 1) % 4);
        else if ((k - from) % symbol < wrong + lost)
            chips.row[k] = DSSS_CHIP_LOST;
}

/* As much as a frame stands: in every symbol of 11 chips twice the wrong ones plus the lost ones is 10, in every
 * symbol of 8 chips it is 3. Up to there each caption is promised to come back; beyond, one may be another. */
static void all_it_stands(void)
{
    static const struct {
        size_t way;
        uint64_t front_wrong, front_lost, symbol, wrong, lost;
        const char *name;
    } spoiled[4] = {
        {0, 5, 0, 11, 5, 0, "long, 1 Mbit/s, of every 11 chips 5 wrong"},
        {4, 0, 10, 11, 0, 10, "short, 2 Mbit/s, of every 11 chips 10 lost"},
        {2, 3, 4, 8, 1, 1, "long, 5.5 Mbit/s, of every 11 chips 3 wrong and 4 lost, of every 8 one and one"},
        {6, 0, 10, 8, 0, 3, "short, 11 Mbit/s, of every 11 chips 10 lost, of every 8 three"},
    };

    puts("\nEvery symbol spoiled, as far as a frame stands it");
    for (size_t k = 0; k < 4; k++) {
        uint64_t kind = ways[spoiled[k].way].kind, rate = ways[spoiled[k].way].rate;
        uint64_t front = DSSS_FRAME_CHIPS(kind, rate, 0), len = send_caption(kind, rate, 0, captions[k]).chips;
        spoil_each(0, front, 11, spoiled[k].front_wrong, spoiled[k].front_lost);
        spoil_each(front, len, spoiled[k].symbol, spoiled[k].wrong, spoiled[k].lost);
        show_hard(spoiled[k].name, kind, len);
    }
    uint64_t len = send_caption(DSSS_SHORT, DSSS_RATE_11, 0, captions[3]).chips;
    spoil_each(DSSS_FRONT_SHORT, len, 8, 0, 4);
    show_hard("beyond: short, 11 Mbit/s, of every 8 chips 4 lost", DSSS_SHORT, len);
}

/* Number 0 is not "the text is right", nor is a large lead: only the header has a check, the payload's is
 * the MAC's. */
static void another_text(void)
{
    puts("\nNumber 0 with another text: one symbol of 11 Mbit/s turned by a quarter");
    uint64_t len = send_caption(DSSS_SHORT, DSSS_RATE_11, 0, captions[0]).chips;
    for (uint64_t octet = 1; octet < 54; octet += 41) {
        uint8_t *symbol = chips.row + DSSS_FRAME_CHIPS(DSSS_SHORT, DSSS_RATE_11, octet);
        for (size_t k = 0; k < 8; k++)
            symbol[k] = (uint8_t)((symbol[k] + 1) % 4);
        show_hard(octet == 1 ? "the second" : "the 43rd too", DSSS_SHORT, len);
    }
}

static void cut_short(void)
{
    puts("\nCut short");
    uint64_t len = send_caption(DSSS_LONG, DSSS_RATE_5_5, 0, captions[2]).chips;
    show_hard("whole", DSSS_LONG, len);
    show_hard("without its last chip", DSSS_LONG, len - 1);
    show_hard("only its first 1,500 chips", DSSS_LONG, 1500);
}

static const char *in_mbit(uint64_t rate)
{
    switch (rate) {
    case DSSS_RATE_1:
        return "1";
    case DSSS_RATE_2:
        return "2";
    case DSSS_RATE_5_5:
        return "5.5";
    default:
        return "11";
    }
}

/* What is coming, in words for the fitter. */
static void tell(const char *what, dsss_coming coming)
{
    if (coming.number != 0) {
        printf("%s: nothing to read, %" PRIu64 ". %s\n    place %" PRIu64 ", LENGTH %" PRIu64 "\n", what,
               coming.number, dsss_sentence(coming.number), coming.place, coming.length);
        return;
    }
    printf("%s: %" PRIu64 " octets are coming at %s Mbit/s, for %" PRIu64 " microseconds%s\n", what, coming.n,
           in_mbit(coming.rate), coming.length,
           coming.clock ? ", chip clock and carrier from one oscillator" : "");
    printf("    in chips %" PRIu64 " to %" PRIu64 " of the recording, %" PRIu64 " of them\n", coming.at,
           coming.at + coming.count - 1, coming.count);
}

/* How the payload's chips came through, in words for the fitter: many lost, and the aerial is moved; one
 * unusable, and a read will be refused. The part of a refusal has no chip: count comes first. */
static void tell_part(const uint8_t *recording, dsss_coming coming)
{
    uint64_t lost = 0, unusable = 0;

    if (coming.count == 0)
        return;
    const uint8_t *part = recording + coming.at;
    for (uint64_t k = 0; k < coming.count; k++) {
        lost += part[k] == DSSS_CHIP_LOST;
        unusable += part[k] > DSSS_CHIP_LOST;
    }
    printf("    of these %" PRIu64 " are lost and %" PRIu64 " unusable\n", lost, unusable);
}

/* Asks what is coming, looks over its chips, sets aside just its octets, and only then reads. A refused
 * read gives them back. */
static void ask_and_read(const char *what, uint64_t kind, uint64_t len)
{
    dsss_coming coming = dsss_read_front(kind, chips.row, len);

    tell(what, coming);
    tell_part(chips.row, coming);
    if (coming.number != 0)
        return;
    if (coming.n > ASIDE_MAX - aside_used) {
        printf("    left unread: %zu octets are free\n", ASIDE_MAX - aside_used);
        return;
    }
    uint8_t *row = aside.row + aside_used;
    dsss_record record = dsss_read_hard(kind, chips.row, len, row, coming.n);
    if (record.number != 0) {
        printf("    refused, %" PRIu64 ", at chip %" PRIu64 ". %s\n", record.number, record.place,
               dsss_sentence(record.number));
        return;
    }
    aside_used += coming.n;
    printf("    \"");
    show_octets(row, coming.n);
    puts("\"");
    show_lead(kind, record);
}

/* What the front tells is no word on the payload's chips: the read behind it may still be refused. */
static void what_is_coming(void)
{
    puts("\nWhat is coming, asked before it is read");
    ask_and_read("first", DSSS_LONG, send_caption(DSSS_LONG, DSSS_RATE_1, 0, captions[0]).chips);
    uint64_t len = send_caption(DSSS_SHORT, DSSS_RATE_11, 1, captions[1]).chips;
    for (uint64_t k = 0; k < len; k += 11)
        chips.row[k] = DSSS_CHIP_LOST;
    ask_and_read("second, chips lost", DSSS_SHORT, len);
    len = send_caption(DSSS_LONG, DSSS_RATE_5_5, 0, captions[2]).chips;
    ask_and_read("third, without its last chip", DSSS_LONG, len - 1);
    chips.row[DSSS_FRONT_LONG + 100] = 200;
    ask_and_read("third, a chip unusable", DSSS_LONG, len);
    chips.row[100] = 200;
    ask_and_read("third, a chip of its front too", DSSS_LONG, len);
    ask_and_read("third, once more", DSSS_LONG, send_caption(DSSS_LONG, DSSS_RATE_5_5, 0, captions[2]).chips);
    ask_and_read("fourth", DSSS_SHORT, send_caption(DSSS_SHORT, DSSS_RATE_2, 0, captions[3]).chips);
    ask_and_read("first again", DSSS_LONG, send_caption(DSSS_LONG, DSSS_RATE_11, 0, captions[0]).chips);
    printf("%zu of %d octets set aside\n", aside_used, (int)ASIDE_MAX);
}

/* What a find answers, in words for the fitter, who knows which chip is the frame's first. */
static void tell_found(const char *what, uint64_t first, dsss_found found)
{
    if (found.number != 0) {
        printf("%s: none found, %" PRIu64 ". %s\n", what, found.number, dsss_sentence(found.number));
        return;
    }
    printf("%s: a front that tells of %" PRIu64 " octets at %s Mbit/s, LENGTH %" PRIu64 "%s\n", what, found.n,
           in_mbit(found.rate), found.length,
           found.clock ? ", chip clock and carrier from one oscillator" : "");
    printf("    found at chip %" PRIu64 ", %" PRIu64 " before the frame's first\n", found.offset,
           first - found.offset);
}

/* Finds a front behind lost chips, and reads from the offset found and from the frame's first chip. */
static uint64_t find_and_read(const char *what, uint64_t rate, uint64_t clock, const char *caption)
{
    uint64_t len = LOST + send_behind(LOST, DSSS_LONG, rate, clock, caption).chips;
    dsss_found found = dsss_find(DSSS_LONG, chips.row, len, DSSS_OFFSETS_MAX);

    tell_found(what, LOST, found);
    if (found.number == 0)
        show_from("read from there", DSSS_LONG, found.offset, len);
    show_from("read from the frame's first chip", DSSS_LONG, LOST, len);
    return len;
}

/* The offset found is not the frame's first chip: it is where a front can be read. At 2 Mbit/s the caption
 * is right from there too, at a lead of one chip; at 11 Mbit/s number 0 comes with other octets. */
static void begun_anywhere(void)
{
    printf("\nRecordings that begin anywhere: %d lost chips, then a frame\n", (int)LOST);
    find_and_read("long, 2 Mbit/s", DSSS_RATE_2, 1, captions[1]);
    uint64_t len = find_and_read("long, 11 Mbit/s", DSSS_RATE_11, 0, captions[3]);
    tell_found("cut in its payload", LOST, dsss_find(DSSS_LONG, chips.row, len - 8, DSSS_OFFSETS_MAX));
    tell_found("within 300 chips", LOST, dsss_find(DSSS_LONG, chips.row, len, 300));
    tell_found("in no chips", LOST, dsss_find(DSSS_LONG, NULL, 0, 300));
    tell_found("within no chips", LOST, dsss_find(DSSS_LONG, chips.row, len, 0));
}

/* A reason in words: what its numbers are of, what is expected, unless that is nothing, what is found, and
 * what the fitter does. */
static const struct {
    const char *of, *expected, *found, *act;
} reasons[] = {
    [DSSS_REFUSED_KIND] = {"kind", NULL, "asked for", "Ask for 0 (long) or 1 (short)."},
    [DSSS_REFUSED_FRONT] = {"chips", "in a front", "recorded", "Record for longer."},
    [DSSS_REFUSED_CHIP] = {"octet", NULL, "recorded, which is no chip", "Look at the recorder."},
    [DSSS_REFUSED_GROWTH] = {"growth", NULL, "read, where 0 or 2 is sent", "Move the aerial."},
    [DSSS_REFUSED_SFD] = {"SFD", "sent with this kind", "read", "Try the other kind, then move the aerial."},
    [DSSS_REFUSED_CRC] = {"CRC of the header", "worked out", "read", "Move the aerial."},
    [DSSS_REFUSED_SIGNAL] = {"SIGNAL", NULL, "read, no rate of this kind", "Look at the sender's rate."},
    [DSSS_REFUSED_SERVICE] = {"SERVICE", NULL, "in bits that must be 0", "Look at the sender's coding."},
    [DSSS_REFUSED_LENGTH] = {"LENGTH", "as a sender makes it", "read", "Look at the sender's header."},
    [DSSS_REFUSED_CUT] = {"chips", "in the frame", "recorded", "Record for longer."},
    [DSSS_REFUSED_OCTET_ROOM] = {"octets", "in the payload", "of room", "Lend a longer buffer."},
};

/* An SFD or a CRC as four hexadecimal digits and an h, any other number as it is. */
static void show_number(uint64_t refusal, uint64_t number, const char *words)
{
    if (refusal == DSSS_REFUSED_SFD || refusal == DSSS_REFUSED_CRC)
        printf(" %04" PRIX64 "h %s", number, words);
    else
        printf(" %" PRIu64 " %s", number, words);
}

/* Why the recording in the chip row is refused with so much room, which may be any number: no buffer is lent.
 * LENGTH has no right one where its octets are none that a payload has. */
static void show_why(const char *what, uint64_t kind, uint64_t len, uint64_t room)
{
    dsss_reason why = dsss_why(kind, chips.row, len, room);

    if (why.number == 0) {
        printf("%s: not refused\n", what);
        return;
    }
    printf("%s: refused, %" PRIu64 "\n    %s", what, why.number, reasons[why.number].of);
    if (why.number == DSSS_REFUSED_CHIP || why.number == DSSS_REFUSED_GROWTH)
        printf(" at chip %" PRIu64, why.place);
    putchar(':');
    if (reasons[why.number].expected && (why.number != DSSS_REFUSED_LENGTH || why.expected != 0)) {
        show_number(why.number, why.expected, reasons[why.number].expected);
        putchar(',');
    }
    show_number(why.number, why.found, reasons[why.number].found);
    printf(". %s\n", reasons[why.number].act);
}

/* Reads the recording in the chip row with so much room, and says why if it is refused. */
static void read_or_why(const char *what, uint64_t kind, uint64_t len, size_t room)
{
    fill_with_old();
    dsss_record record = dsss_read_hard(kind, chips.row, len, octets.row, room);
    if (record.number == 0)
        show(what, kind, record);
    else
        show_why(what, kind, len, room);
}

/* Turns the eleven chips of a symbol. */
static void turn(uint64_t symbol, uint8_t by)
{
    for (uint64_t k = 11 * symbol; k < 11 * symbol + 11; k++)
        chips.row[k] = (uint8_t)((chips.row[k] + by) % 4);
}

/* A frame whose header no writer makes, with its right CRC: the bits of its front are those of three fronts
 * added, as their chips are here, the second taken away; scrambler and CRC are sums of bits. The payload is that
 * of the third. */
static uint64_t send_mixed(const uint64_t *rates, const unsigned *which)
{
    static uint8_t mixed[DSSS_FRONT_LONG];
    uint64_t len = 0;

    memset(mixed, 0, sizeof mixed);
    for (size_t frame = 0; frame < 3; frame++) {
        len = send_caption(DSSS_LONG, rates[frame], 0, captions[which[frame]]).chips;
        for (size_t k = 0; k < DSSS_FRONT_LONG; k++)
            mixed[k] = (uint8_t)((mixed[k] + (frame == 1 ? 4 - chips.row[k] : chips.row[k])) % 4);
    }
    memcpy(chips.row, mixed, sizeof mixed);
    return len;
}

static void why_headers(void)
{
    static const uint64_t rates[4][3] = {{DSSS_RATE_1, DSSS_RATE_2, DSSS_RATE_5_5},
                                         {DSSS_RATE_11, DSSS_RATE_11, DSSS_RATE_2},
                                         {DSSS_RATE_11, DSSS_RATE_11, DSSS_RATE_2},
                                         {DSSS_RATE_1, DSSS_RATE_1, DSSS_RATE_11}};
    static const unsigned which[4][3] = {{0, 1, 2}, {0, 3, 1}, {1, 3, 1}, {1, 3, 3}};
    static const char *const what[4] = {"a rate that is none", "bit 7 of SERVICE at 2 Mbit/s",
                                        "a LENGTH that is no octets'", "a LENGTH of 0"};

    for (size_t k = 0; k < 4; k++)
        read_or_why(what[k], DSSS_LONG, send_mixed(rates[k], which[k]), CAPTION_MAX);
}

/* Every refusal that a read of a hard recording can have. */
static void why_refused(void)
{
    puts("\nWhy recordings are refused");
    uint64_t len = send_caption(DSSS_LONG, DSSS_RATE_1, 0, captions[2]).chips;
    read_or_why("long, 1 Mbit/s", DSSS_LONG, len, CAPTION_MAX);
    read_or_why("by another kind", 2, len, CAPTION_MAX);
    read_or_why("as short", DSSS_SHORT, len, CAPTION_MAX);
    read_or_why("only its first 1,500 chips", DSSS_LONG, 1500, CAPTION_MAX);
    read_or_why("without its last chip", DSSS_LONG, len - 1, CAPTION_MAX);
    read_or_why("with room for 41 octets", DSSS_LONG, len, 41);
    show_why("with room for 2^64 - 1, asked only", DSSS_LONG, len, UINT64_MAX);
    turn(200, 3);
    read_or_why("symbol 200 turned by three quarters", DSSS_LONG, len, CAPTION_MAX);
    chips.row[2345] = 200;
    read_or_why("an unusable octet too", DSSS_LONG, len, CAPTION_MAX);
    turn(191, 2);
    read_or_why("the header's last symbol turned by half too", DSSS_LONG, len, CAPTION_MAX);
    turn(50, 1);
    read_or_why("symbol 50 turned by a quarter too", DSSS_LONG, len, CAPTION_MAX);
    why_headers();
}

/* Keeps the recording that stands in the chip row, and counts it into the report. What its read is refused
 * with is counted, and the answer is 0 all the same. */
static dsss_report keep(const char *what, dsss_report report, uint64_t kind, uint64_t len)
{
    size_t k = kept.len++;
    dsss_record record = dsss_read_hard(kind, chips.row, len, octets.row, CAPTION_MAX);
    dsss_counted counted = dsss_report_add(report, kind, chips.row, len);

    memcpy(kept.rows[k], chips.row, len);
    kept.kinds[k] = kind;
    kept.list[k].chips = kept.rows[k];
    kept.list[k].chips_len = len;
    printf("%s: a read answers %" PRIu64 ", the report %" PRIu64 "; %" PRIu64 " seen\n", what, record.number,
           counted.number, counted.report.seen);
    return counted.report;
}

/* The text is no C string: just its octets are shown. */
static void show_text(dsss_report report, size_t room)
{
    memset(text.row, 'x', DSSS_TEXT_MAX);
    dsss_text told = dsss_report_text(report, text.row, room);
    fwrite(text.row, 1, (size_t)told.octets, stdout);
    if (told.number != 0)
        printf("in %zu octets: refused, %" PRIu64 ". %s\n", room, told.number, dsss_sentence(told.number));
}

static dsss_report keep_all(void)
{
    dsss_report report = {0};
    uint64_t len = send_caption(DSSS_LONG, DSSS_RATE_1, 0, captions[0]).chips;

    report = keep("long, 1 Mbit/s", report, DSSS_LONG, len);
    report = keep("the same as short", report, DSSS_SHORT, len);
    len = send_caption(DSSS_SHORT, DSSS_RATE_11, 0, captions[1]).chips;
    report = keep("short, 11 Mbit/s", report, DSSS_SHORT, len);
    report = keep("without its last chip", report, DSSS_SHORT, len - 1);
    for (uint64_t k = 0; k < len; k += 11)
        chips.row[k] = DSSS_CHIP_LOST;
    report = keep("every eleventh chip lost", report, DSSS_SHORT, len);
    chips.row[1234] = 200;
    return keep("a chip unusable too", report, DSSS_SHORT, len);
}

/* Counted one by one, as they come, or the whole list at once, the report is the same. */
static void end_of_month(void)
{
    puts("\nThe month's report");
    dsss_report report = keep_all();
    show_text(report, DSSS_TEXT_MAX);
    show_text(report, 100);
    dsss_counted listed = dsss_report_list(kept.kinds, kept.len, kept.list, kept.len);
    printf("the whole list: %" PRIu64 ", %s\n", listed.number,
           memcmp(&listed.report, &report, sizeof report) == 0 ? "the same report" : "ANOTHER REPORT");
    listed = dsss_report_list(kept.kinds, kept.len - 1, kept.list, kept.len);
    printf("a kind too few: refused, %" PRIu64 ", %" PRIu64 " seen\n", listed.number, listed.report.seen);
    dsss_counted counted = {0, report};
    while (counted.number == 0)
        counted = dsss_report_add(counted.report, DSSS_LONG, NULL, 0);
    printf("empty recordings until it is full: %" PRIu64 " seen, refused, %" PRIu64 ". %s\n", counted.report.seen,
           counted.number, dsss_sentence(counted.number));
}

/* A caption written with the settings that the table keeps. */
static void by_settings(dsss_settings settings)
{
    const uint8_t *payload = (const uint8_t *)captions[0];

    if (settings.number != 0) {
        puts("no caption is written: the table has no settings");
        return;
    }
    dsss_written frame = dsss_write(settings.kind, settings.rate, settings.phase, 0, payload, strlen(captions[0]),
                                    chips.row, CHIPS_MAX);
    if (frame.number == 0)
        show_hard("a caption with these settings", settings.kind, frame.chips);
    else
        printf("a caption with these settings: refused, %" PRIu64 ". %s\n", frame.number,
               dsss_sentence(frame.number));
}

static void not_written(void)
{
    puts("\nA frame that cannot be written");
    dsss_written refused = send_caption(DSSS_SHORT, DSSS_RATE_1, 0, captions[0]);
    size_t lost = 0;
    while (lost < CHIPS_MAX && chips.row[lost] == DSSS_CHIP_LOST)
        lost++;
    printf("short, 1 Mbit/s: refused, %" PRIu64 ". %s\n", refused.number,
           dsss_sentence(refused.number));
    printf("    %" PRIu64 " chips written, %zu of %d chips marked lost\n", refused.chips, lost,
           (int)CHIPS_MAX);
}

int main(void)
{
    set_guards(GUARD_OCTET);
    every_way();
    spare_board();
    locked_clocks();
    spoiled();
    aerial_out_of_place();
    all_it_stands();
    another_text();
    cut_short();
    what_is_coming();
    begun_anywhere();
    why_refused();
    compare_receivers(captions[0], captions[2]);
    int heard = hear_as_1997(captions);
    end_of_month();
    dsss_settings settings;
    int saved = keep_settings(&settings);
    if (saved)
        by_settings(settings);
    not_written();
    int stand = guards_stand() && compare_guards_stand() && guides_guards_stand() && store_guards_stand();
    printf("\nGuard octets %s\n", stand ? "as they were" : "CHANGED");
    return stand && heard && saved ? 0 : 1;
}
