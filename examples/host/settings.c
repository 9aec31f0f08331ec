/* settings.c: a table's radio settings, kept in a store in memory and in a file.
 *
 * THE STORE IS DSSS_STORE_OCTETS OCTETS, HOWEVER LONG THE BUFFER IS THAT IT STANDS IN. Here the buffer is longer, and
 * the zeros behind the store are neither read nor saved. A file is written whole and read whole: its length is the
 * store's. Each save makes a new file, NAME.new, and renames it to NAME when it is whole: a power cut leaves the old
 * file or the new one, never a part, and a store never ends in octets of a longer one that was there before. Here
 * temporary files stand for both. */
#include "settings.h"

#include <inttypes.h>
#include <stdio.h>
#include <string.h>

enum { ROOM = 24, NEWER = 27, GUARD = 32, GUARD_OCTET = 0x5C };

/* The table's own store, and one that a newer program has written. */
static struct {
    uint8_t before[GUARD], row[ROOM], after[GUARD];
} kept;

static struct {
    uint8_t before[GUARD], row[NEWER], after[GUARD];
} newer;

int store_guards_stand(void)
{
    int changed = 0;

    for (size_t k = 0; k < GUARD; k++)
        changed |= (kept.before[k] ^ GUARD_OCTET) | (kept.after[k] ^ GUARD_OCTET)
                   | (newer.before[k] ^ GUARD_OCTET) | (newer.after[k] ^ GUARD_OCTET);
    return !changed;
}

static void show_octets(const uint8_t *row, size_t len)
{
    printf("   ");
    for (size_t k = 0; k < len; k++)
        printf(" %02X", row[k]);
    puts("");
}

static void show_settings(const char *what, dsss_settings settings)
{
    if (settings.number != 0)
        printf("%s: refused, %" PRIu64 ". %s\n", what, settings.number, dsss_sentence(settings.number));
    else
        printf("%s: %s, rate code %" PRIu64 ", starting phase %" PRIu64 "\n", what,
               settings.kind == DSSS_LONG ? "long" : "short", settings.rate, settings.phase);
}

/* Changes a setting, and shows how many octets are no longer as they were: one at most, after a refusal none. */
static void change(const char *what, uint8_t *store, size_t len, uint64_t tag, uint64_t value)
{
    static uint8_t before[DSSS_STORE_MAX];

    if (len > sizeof before) {
        printf("%s: not tried, as no store has %zu octets\n", what, len);
        return;
    }
    memcpy(before, store, len);
    uint64_t number = dsss_store_change(store, len, tag, value);
    if (number == 0)
        printf("%s: changed\n", what);
    else
        printf("%s: refused, %" PRIu64 ". %s\n", what, number, dsss_sentence(number));
    size_t changed = 0;
    for (size_t k = 0; k < len; k++)
        changed += store[k] != before[k];
    printf("    %zu of %zu octets changed\n", changed, len);
}

static void in_memory(void)
{
    puts("\nA table's settings in a store");
    uint64_t number = dsss_store_write(DSSS_LONG, DSSS_RATE_1, 2, kept.row, ROOM);
    if (number == 0)
        printf("stored in the first %d of %d octets\n", DSSS_STORE_OCTETS, (int)ROOM);
    else
        printf("not stored: refused, %" PRIu64 ". %s\n", number, dsss_sentence(number));
    show_octets(kept.row, ROOM);
    show_settings("read", dsss_store_read(kept.row, DSSS_STORE_OCTETS));
    show_settings("read with the length of the buffer", dsss_store_read(kept.row, ROOM));
    change("short, while the rate code is 10", kept.row, DSSS_STORE_OCTETS, DSSS_TAG_KIND, DSSS_SHORT);
    change("rate code 110", kept.row, DSSS_STORE_OCTETS, DSSS_TAG_RATE, DSSS_RATE_11);
    change("and then short", kept.row, DSSS_STORE_OCTETS, DSSS_TAG_KIND, DSSS_SHORT);
    change("tag 4", kept.row, DSSS_STORE_OCTETS, 4, 0);
    show_settings("read", dsss_store_read(kept.row, DSSS_STORE_OCTETS));
}

/* A store of a newer program: version 2, and two tags that this one does not know, 5 with two octets and 77 with none.
 * The settings are read and changed, and what is not known stays. */
static void of_newer_program(void)
{
    static const uint8_t of_newer[NEWER] = {2, 5, 1, 22, 0, 1, 2, 23, 0, 1, 3, 24, 0, 1, 5, 25, 0, 2, 77, 27, 0, 0,
                                            0, 55, 3, 0xAB, 0xCD};

    memcpy(newer.row, of_newer, NEWER);
    show_settings("of a newer program", dsss_store_read(newer.row, NEWER));
    change("starting phase 1", newer.row, NEWER, DSSS_TAG_PHASE, 1);
    show_octets(newer.row, NEWER);
    newer.row[18] = 200;
    show_settings("with a tag that a reader must know", dsss_store_read(newer.row, NEWER));
    newer.row[18] = 77;
}

static FILE *file; /* stands for the file NAME; NULL while there is none */

/* Saves a store, just its own octets if it is done right, in place of what was in the file; whether it could be done.
 * If not, the old file stays. */
static int save(const uint8_t *store, size_t len)
{
    FILE *whole = tmpfile(); /* stands for NAME.new */

    if (!whole || fwrite(store, 1, len, whole) != len || fflush(whole) != 0) {
        puts("the settings cannot be saved");
        if (whole)
            fclose(whole);
        return 0;
    }
    if (file)
        fclose(file);
    file = whole; /* stands for the renaming; before it, at a table, the octets are brought to the disk (fsync) */
    return 1;
}

/* Reads the file whole; whether it could be done. A file that is longer than any store is seen to be longer: there is
 * room for an octet more. */
static int load(dsss_settings *settings)
{
    static uint8_t row[DSSS_STORE_MAX + 1];

    rewind(file);
    size_t len = fread(row, 1, sizeof row, file);
    if (ferror(file)) {
        puts("the settings cannot be read");
        return 0;
    }
    printf("%zu octets in the file\n", len);
    *settings = dsss_store_read(row, len);
    return 1;
}

/* Saves three stores one after the other, the table's own last, and reads each back; whether all could be done. */
static int in_file(dsss_settings *settings)
{
    const struct {
        const char *what;
        const uint8_t *store;
        size_t len;
    } saved[] = {
        {"saved with the length of the buffer, which is wrong", kept.row, ROOM},
        {"saved by a newer program", newer.row, NEWER},
        {"saved in its place, and read back from the file", kept.row, DSSS_STORE_OCTETS},
    };
    int done = 1;

    for (size_t k = 0; done && k < sizeof saved / sizeof saved[0]; k++) {
        done = save(saved[k].store, saved[k].len) && load(settings);
        if (done)
            show_settings(saved[k].what, *settings);
    }
    if (file)
        fclose(file);
    file = NULL;
    return done;
}

int keep_settings(dsss_settings *settings)
{
    memset(&kept, GUARD_OCTET, sizeof kept);
    memset(&newer, GUARD_OCTET, sizeof newer);
    in_memory();
    of_newer_program();
    return in_file(settings);
}
