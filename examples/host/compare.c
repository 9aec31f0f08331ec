/* compare.c: two receivers over one table, compared chip by chip and octet by octet.
 *
 * The fitter hangs a second receiver beside the first, has both record one caption, and asks where they differ:
 * which chips, and which octets of what was read. Chips may differ where no octet does, as a frame stands some
 * damage. A list is three numbers an entry: the index, what the first has there, and what the second has.
 * A LIST IS SHOWN ONLY IF IT FITS ITS ROW. One that does not fit leaves its row all zeros, and these are no entries:
 * shown as such they would be differences at chip 0. The number of entries is told in full either way. From it the
 * host sees whether the list fits, and asks again with places for all of it, if its row has so many. */
#include "compare.h"
#include "dsss.h"

#include <inttypes.h>
#include <stdio.h>
#include <string.h>

enum { CAPTION_MAX = 64, BEHIND = 24, GUARD = 32, GUARD_OCTET = 0x5C };

/* Entries of the longest list that is shown, and the places of its row. */
enum { LISTED = 12 };
#define PLACES DSSS_LIST_PLACES(LISTED)

#define FRAME_MAX DSSS_FRAME_CHIPS(DSSS_SHORT, DSSS_RATE_11, CAPTION_MAX)

/* The recording of a receiver, with room for some chips behind the frame. */
typedef struct {
    uint8_t before[GUARD], row[FRAME_MAX + BEHIND], after[GUARD];
    size_t len;
} recording;

static recording first, second;

/* The lists of what differs. */
static struct {
    uint8_t before[GUARD];
    uint64_t row[PLACES];
    uint8_t after[GUARD];
} chips, octets;

/* What is read from each recording. With room for DSSS_PAYLOAD_MAX octets refusal 17 cannot come. */
static struct {
    uint8_t before[GUARD], row[DSSS_PAYLOAD_MAX], after[GUARD];
} first_read, second_read;

static int changed;

int compare_guards_stand(void)
{
    return !changed;
}

/* Notes whether so many guard octets are no longer as they were. */
static void look_at(const void *guards, size_t len)
{
    const uint8_t *octet = guards;

    for (size_t k = 0; k < len; k++)
        changed |= octet[k] ^ GUARD_OCTET;
}

static void set_guards(void)
{
    memset(&chips, GUARD_OCTET, sizeof chips);
    memset(&octets, GUARD_OCTET, sizeof octets);
    memset(&first_read, GUARD_OCTET, sizeof first_read);
    memset(&second_read, GUARD_OCTET, sizeof second_read);
}

/* Compares the two recordings with so many places for the list of chips, PLACES at most. The places behind them are
 * not lent, and must stay as they were. */
static dsss_compared compare(size_t chip_places)
{
    set_guards();
    dsss_compared compared =
        dsss_compare(DSSS_SHORT, first.row, first.len, second.row, second.len, chips.row, chip_places, octets.row,
                     PLACES, first_read.row, DSSS_PAYLOAD_MAX, second_read.row, DSSS_PAYLOAD_MAX);
    look_at(chips.before, GUARD);
    look_at(chips.row + chip_places, (PLACES - chip_places) * sizeof chips.row[0]);
    look_at(chips.after, GUARD);
    look_at(octets.before, GUARD);
    look_at(octets.after, GUARD);
    look_at(first_read.before, GUARD);
    look_at(first_read.after, GUARD);
    look_at(second_read.before, GUARD);
    look_at(second_read.after, GUARD);
    return compared;
}

static void show_chip(uint64_t octet)
{
    if (octet == DSSS_CHIP_LOST)
        printf("lost");
    else
        printf("%" PRIu64, octet);
}

/* An octet of a payload as a number, and as a character too if it has one to print. */
static void show_octet(uint64_t octet)
{
    printf("%" PRIu64, octet);
    if (octet >= ' ' && octet <= '~')
        printf(" '%c'", (int)octet);
}

/* A list from its row of so many places, if it fits there. */
static void show_list(const char *of, const uint64_t *row, size_t places, uint64_t entries,
                      void (*show)(uint64_t octet))
{
    if (entries == 0)
        return;
    if (DSSS_LIST_PLACES(entries) > places) {
        printf("    %s: too many to list\n", of);
        return;
    }
    printf("    %s", of);
    for (size_t k = 0; k < entries; k++) {
        const uint64_t *entry = row + DSSS_LIST_PLACES(k);

        printf("%s %" PRIu64 " (", k == 0 ? "" : ",", entry[0]);
        show(entry[1]);
        printf(", ");
        show(entry[2]);
        putchar(')');
    }
    puts("");
}

static void show_record(const char *which, dsss_record record)
{
    printf("    the %s is ", which);
    if (record.number == 0) {
        printf("accepted, %" PRIu64 " octets\n", record.n);
        return;
    }
    printf("refused, %" PRIu64, record.number);
    if (record.number == DSSS_REFUSED_CHIP || record.number == DSSS_REFUSED_GROWTH)
        printf(", at chip %" PRIu64, record.place);
    printf(". %s\n", dsss_sentence(record.number));
}

/* How many chips and octets differ, out of how many that are compared. No octets are unless both recordings are
 * accepted: octets, n_a and n_b are 0 then, which does not say that the payloads are the same. */
static void show_numbers(const char *what, dsss_compared compared)
{
    int accepted = compared.a.number == 0 && compared.b.number == 0;

    printf("%s: %" PRIu64 " of %zu chips differ, ", what, compared.chips,
           first.len < second.len ? first.len : second.len);
    if (accepted)
        printf("%" PRIu64 " of %" PRIu64 " octets; smallest leads %.2f and %.2f chips\n", compared.octets,
               compared.n_a < compared.n_b ? compared.n_a : compared.n_b, (double)compared.a.lead / DSSS_FULL_CHIP,
               (double)compared.b.lead / DSSS_FULL_CHIP);
    else {
        puts("no octets are compared");
        show_record("first", compared.a);
        show_record("second", compared.b);
    }
    if (first.len != second.len)
        printf("    recordings of %zu and %zu chips; of these the frames use %" PRIu64 " and %" PRIu64 "\n", first.len,
               second.len, compared.a.used, compared.b.used);
    if (compared.n_a != compared.n_b)
        printf("    payloads of %" PRIu64 " and %" PRIu64 " octets\n", compared.n_a, compared.n_b);
}

/* Whether the first places of the row for chips are all 0. */
static int all_zeros(size_t places)
{
    for (size_t k = 0; k < places; k++)
        if (chips.row[k] != 0)
            return 0;
    return 1;
}

/* Compares with so many places for the list of chips, and again with as many as the list needs if these are too few
 * and the row has them. */
static void show_compared(const char *what, size_t chip_places)
{
    dsss_compared compared = compare(chip_places);

    show_numbers(what, compared);
    if (DSSS_LIST_PLACES(compared.chips) > chip_places && compared.chips <= LISTED) {
        printf("    the list of chips does not fit %zu places, which are %s; asked again with %zu\n", chip_places,
               all_zeros(chip_places) ? "all 0" : "NOT ALL 0", DSSS_LIST_PLACES(compared.chips));
        chip_places = DSSS_LIST_PLACES(compared.chips);
        compared = compare(chip_places);
    }
    show_list("chips", chips.row, chip_places, compared.chips, show_chip);
    show_list("octets", octets.row, PLACES, compared.octets, show_octet);
}

/* Has a receiver record a caption's frame as it was sent; whether it could be written. The chips behind the frame are
 * marked lost. */
static int hear(recording *to, const char *caption)
{
    memset(to, GUARD_OCTET, sizeof *to);
    dsss_written frame = dsss_write(DSSS_SHORT, DSSS_RATE_11, 0, 0, (const uint8_t *)caption, strlen(caption), to->row,
                                    sizeof to->row);
    look_at(to->before, GUARD);
    look_at(to->after, GUARD);
    to->len = frame.chips;
    if (frame.number != 0)
        printf("no caption is written: refused, %" PRIu64 ". %s\n", frame.number, dsss_sentence(frame.number));
    return frame.number == 0;
}

static void turn(uint8_t *chip)
{
    *chip = (uint8_t)((*chip + 1) % 4);
}

/* A little damage at each receiver, less than a frame stands. Chip 1300 is lost at both, and does not differ. */
static void spoil_some(void)
{
    first.row[40] = first.row[1200] = first.row[1300] = second.row[1300] = DSSS_CHIP_LOST;
    turn(first.row + 1060);
    turn(second.row + 700);
    turn(second.row + 1201);
}

/* Damage upon damage. The symbol of octet 5, which begins at chip 1096, stands one wrong chip, but not two; then the
 * octets behind it may be wrong too. */
static void spoiled(void)
{
    spoil_some();
    show_compared("some chips wrong or lost", PLACES);
    show_compared("the same, with places for two chips", DSSS_LIST_PLACES(2));
    turn(second.row + 1096);
    turn(second.row + 1097);
    show_compared("two chips of one symbol wrong too", PLACES);
    second.row[500] = 7;
    show_compared("an unusable octet in the second's front too", PLACES);
}

/* Both go on recording behind the frame, the second not as long. Chips behind the frame are compared too, as far as
 * both have them. */
static void stopped_early(void)
{
    first.len += BEHIND;
    second.len += BEHIND / 3;
    second.row[second.len - 2] = 3;
    show_compared("the second stopped early", PLACES);
}

/* A receiver whose phases are all a quarter turn off reads the same: every chip differs, and no octet. */
static void turned(void)
{
    for (size_t k = 0; k < second.len; k++)
        turn(second.row + k);
    show_compared("the second's phases all turned by a quarter", PLACES);
}

void compare_receivers(const char *caption, const char *other)
{
    puts("\nTwo receivers over one table: what differs, as index (first, second); a chip is its phase in quarter "
         "turns, or lost");
    if (hear(&first, caption) && hear(&second, caption))
        spoiled();
    if (hear(&first, caption) && hear(&second, caption))
        stopped_early();
    if (hear(&first, caption) && hear(&second, caption))
        turned();
    if (hear(&first, caption) && hear(&second, other))
        show_compared("the second at another table", PLACES);
}
