/* bridge.c: the library behind a pipe, for test programs that cannot be linked with it.
 *
 * Requests on stdin, one answer each on stdout, both binary and little-endian. A request is a u64 op, a u64 that says
 * how the rows are laid, and then
 *   1, write      u64 kind, rate, phase, clock, payload_len, chips_len; the payload
 *   2, read hard  u64 kind, chips_len, octets_len; the chips
 *   3, read soft  u64 kind, i_len, q_len, octets_len; the f32 of I, those of Q, raw bits
 *   4, read bytes u64 kind, bytes_len, octets_len; the bytes
 *   5, read front u64 kind, chips_len; the chips
 *   6, find       u64 kind, chips_len, offsets; the chips
 *   7, add        the report, 31 u64: seen, frames (4), octets (4), refused (18), airtime, some, lead,
 *                 recording; u64 kind, chips_len; the chips
 *   8, list       u64 kinds_len; the kinds, u64 each; u64 list_len and how many recordings are sent, the others being
 *                 NULL and 0; of each of these u64 chips_len; its chips
 *   9, text       the report, 31 u64 as above; u64 text_len
 *   10, why       u64 kind, chips_len, room; the chips
 *   11, store write   u64 kind, rate, phase, store_len
 *   12, store read    u64 store_len; the store
 *   13, store change  u64 store_len, tag, value; the store
 *   14, compare   u64 kind, a_len, b_len, chip_row_len, octet_row_len, octets_a_len, octets_b_len; the chips of the
 *                 first recording, those of the second
 *   15, read 1997 u64 chips_len, octets_len; the chips
 * A row for reading is a u64, how many of its elements are sent, and these; the others are zeros. An answer is the
 * record (1: number, chips; 2 to 4 and 15: number, place, rate, length, n, used, clock, lead, symbol; 5: number, place,
 * rate, length, clock, n, used, at, count; 6: number, offset, rate, length, clock, n; 7 and 8: number, the report as
 * above, 32 in all; 9: number, octets; 10: number, place, expected, found; 11 and 13: number; 12: number, kind, rate,
 * phase; 14: the two records of 2, chips, octets, n_a, n_b; u64 each), every octet of the lent buffer as the call left
 * it, and a u64 guard, 0 if all is well: 1 if anything is not as it was around the rows or in those lent for reading
 * only, 2 if a call that was made again answered otherwise, 4 if a call that was made in the middle of this one did. 5
 * to 8, 10 and 12 have no lent buffer: of 5 its part stands there instead, `count` chips from the recording's own chips
 * + at on, as far as they are in the recording. The lent buffer of 13 is the store, sent as a row for reading is. 14
 * has four lent rows in the order of their lengths: each is a u64, how many of its elements are sent, and these; the
 * others, behind them, are zeros, and were seen to be.
 *
 * How the rows are laid, from the lowest bit on:
 *   8 bits   what the lent row holds before the call, at both ends if it is long: 0 0xAA, 1 zeros, 2 4s, 3 0xFF, 4 any
 *            of these from octet to octet, 5 what the same call has left there: it is made twice, 6 a good store, of
 *            version 1 or 9 by the lowest bit of the 16 at bit 16, and 0xFF behind it. Of 13 only 5 counts
 *   1 bit    a row of length 0 is passed by a pointer, and not as NULL
 *   1 bit    rows are one where they can be: Q stands in I's memory, `shift` elements further on, or, turned round, I
 *            so in Q's, where the two must be alike; so do the two recordings of 14; a recording of a list that another
 *            of the last four begins or ends with stands in that one's
 *   1 bit    in the middle of the call another is made: the last one of this op that was kept, over its own rows; in
 *            that of 2 and of 15 the last of the other too. See below
 *   1 bit    turned round
 *   16 bits  at bit 16, where the row for reading is split for that, in 1/65536 of it; also where the octets of 4 begin
 *   16 bits  at bit 32, the shift
 *
 * Each row stands between guard octets, octets and bytes at odd addresses, floats at multiples of 4 and wider elements
 * at multiples of 8 that are none of 16. The list of 8 is such a row, and so is each of its recordings. Called as
 * `bridge pages`, each row ends where memory ends instead: a read past it kills the bridge, on every processor; so does
 * a look at a chip behind the front in 5, and one at any chip in 6 where the kind or the number of offsets is refused,
 * and a write to a row for reading, though it were put right again before the call ends. A row of length 0 that is
 * passed by a pointer then stands where no memory is, and 6 is called once more, with a row that begins where memory
 * begins. Called as `bridge exact`, each row is memory of just its size and the lent buffer is not set before the call:
 * for valgrind, which then sees every touch beside a row, what a call makes of the buffer's old contents, and every
 * octet that it leaves unwritten.
 *
 * A call in the middle of another: two parts of the row for reading, and the lent rows, are closed but for the first
 * part; of 11 and 13 the lent row has the two parts, of 14 the first recording. Where the call touches one that is
 * closed, a signal's handler makes the call that was kept, opens that part and closes the others. So whatever the two
 * calls share is seen to be shared, each time in the same way. Only rows between guards are laid so.
 *
 * Answers are flushed when no further input is at hand, so requests may be sent ahead of answers.
 * Status 0 at an end of input between requests; else 1 and a message on stderr. */
#define _DEFAULT_SOURCE
#include "dsss.h"

#include <signal.h>
#include <stdio.h>
#include <stdlib.h>
#include <string.h>
#include <sys/mman.h>
#include <unistd.h>

enum { GUARD = 64, GUARD_OCTET = 0x5C };
enum { LIST_MAX = 1 << 14 }; /* recordings of a list that are sent; with pages each has two mappings of its own */
enum { KEPT_MOST = 1 << 13 }; /* octets of each row of a call that is kept */
enum { EACH_END = 1 << 12 };  /* octets of the zeros that end a row which are looked at behind a call, at each end */
enum { OLD_MOST = 1 << 16 };  /* octets of a lent row, at each end, that are set before the call */

static enum { GUARDS, PAGES, EXACT } rows; /* how rows are laid */

/* What a request says of its rows. */
static struct {
    unsigned old, split, shift;
    int pointed, shared, within, turned;
} laid;

static void die(const char *message)
{
    fprintf(stderr, "bridge: %s\n", message);
    exit(1);
}

/* ---- Input and output ------------------------------------------------------------------------ */

static uint8_t input[1 << 16];
static size_t input_at, input_end;

/* More input; false at its end. Nothing is at hand here, so the answers go out first. */
static int more(void)
{
    if (fflush(stdout) != 0)
        die("cannot write an answer");
    ssize_t got = read(STDIN_FILENO, input, sizeof input);
    if (got < 0)
        die("cannot read a request");
    input_at = 0;
    input_end = (size_t)got;
    return got > 0;
}

static void get(void *to, size_t len)
{
    uint8_t *next = to;

    while (len > 0) {
        if (input_at == input_end && !more())
            die("input ends inside a request");
        size_t some = input_end - input_at < len ? input_end - input_at : len;
        memcpy(next, input + input_at, some);
        input_at += some;
        next += some;
        len -= some;
    }
}

static uint64_t get_number(void)
{
    uint64_t number;

    get(&number, sizeof number);
    return number;
}

static void get_laid(void)
{
    uint64_t word = get_number();

    laid.old = word & 0xFF;
    laid.pointed = word >> 8 & 1;
    laid.shared = word >> 9 & 1;
    laid.within = rows == GUARDS && (word >> 10 & 1) != 0;
    laid.turned = word >> 11 & 1;
    laid.split = word >> 16 & 0xFFFF;
    laid.shift = word >> 32 & 0xFFFF;
}

static void put(const void *from, size_t len)
{
    if (len > 0 && fwrite(from, 1, len, stdout) != len)
        die("cannot write an answer");
}

/* ---- Rows ------------------------------------------------------------------------------------ */

struct row {
    uint8_t *memory;     /* guard, row and guard */
    size_t size;         /* of the memory, in octets */
    size_t from, to;     /* where the row stands in it */
    size_t sent;         /* of a row for reading, the octets that were sent; those behind are zeros */
    uint8_t *copy;       /* of these, from before the call */
    void *pointer;       /* as it is handed to the call */
    uint8_t *all, *edge; /* with pages: what must be given back, and where the pages begin that can be closed */
    size_t held, closed; /* the sizes of both */
    int lent;            /* for writing */
};

/* Whole pages for so many octets. */
static size_t in_pages(size_t len)
{
    size_t page = (size_t)sysconf(_SC_PAGESIZE);

    return (len + page - 1) / page * page;
}

static void set_access(const struct row *row, int access)
{
    if (row->all && mprotect(row->edge, row->closed, access) != 0)
        die("cannot open or close a row");
}

/* Memory of zeros for a row that begins `before` octets into it and of whose octets the first `open`, or all, may be
 * looked at. In pages those end where a page ends, and the pages from there on can be closed. */
static void find_memory(struct row *row, size_t before, size_t len, size_t open, int in_middle)
{
    row->from = rows == EXACT ? 0 : before;
    row->to = row->from + len;
    row->size = row->to + (rows == GUARDS ? GUARD : 0);
    if (rows != PAGES && !in_middle) {
        row->memory = rows == EXACT ? malloc(row->size > 0 ? row->size : 1) : calloc(row->size, 1);
        return;
    }
    size_t span = in_pages(row->from + open);
    row->closed = in_pages(row->size - row->from - open + 1);
    row->held = span + row->closed;
    row->all = mmap(NULL, row->held, PROT_READ | PROT_WRITE, MAP_PRIVATE | MAP_ANONYMOUS, -1, 0);
    if (row->all == MAP_FAILED)
        die("no memory for a row");
    row->edge = row->all + span;
    row->memory = row->edge - open - row->from;
}

/* A row of `count` elements of `width` octets, of which the first `open` may be looked at, guards around it. */
static struct row make_row(uint64_t count, size_t width, uint64_t open, int lent, int in_middle)
{
    struct row row = {0};

    if (count > (1u << 30) / width)
        die("a row is too long");
    row.lent = lent;
    find_memory(&row, GUARD + (width < 8 ? width : 8), (size_t)count * width, (size_t)open * width, in_middle);
    if (!row.memory)
        die("no memory for a row");
    row.pointer = count > 0 || laid.pointed ? row.memory + row.from : NULL;
    if (count == 0 && laid.pointed && rows == PAGES)
        row.pointer = row.edge + GUARD; /* no octet before it either may be looked at */
    memset(row.memory, GUARD_OCTET, row.from);
    memset(row.memory + row.to, GUARD_OCTET, row.size - row.to);
    return row;
}

/* The elements of a row as they are sent; zeros behind them. */
static size_t get_elements(uint8_t *to, size_t len, size_t width)
{
    uint64_t sent = get_number();

    if (sent > len / width)
        die("more elements than a row has");
    get(to, (size_t)sent * width);
    if (rows == EXACT && len > sent * width)
        memset(to + sent * width, 0, len - (size_t)sent * width);
    return (size_t)sent * width;
}

/* What is held against the row behind the call. In pages it can only be read from here on. */
static void copy_row(struct row *row)
{
    row->copy = malloc(row->sent > 0 ? row->sent : 1);
    if (!row->copy)
        die("no memory for a row");
    memcpy(row->copy, row->memory + row->from, row->sent);
    if (rows != PAGES)
        return;
    if (mprotect(row->all, (size_t)(row->edge - row->all), PROT_READ) != 0)
        die("cannot close a row");
    set_access(row, PROT_NONE);
}

/* A row of which only the first `open` elements may be looked at. */
static struct row read_row_to(uint64_t count, size_t width, uint64_t open)
{
    struct row row = make_row(count, width, open, 0, 0);

    row.sent = get_elements(row.memory + row.from, row.to - row.from, width);
    copy_row(&row);
    return row;
}

/* The elements before the place where a row is split, if it is. */
static uint64_t before_split(uint64_t count, int split)
{
    return split ? 1 + (count - 1) * laid.split / 65536 : count;
}

/* A row that may be split for a call in the middle of this one. */
static struct row read_row(uint64_t count, size_t width, int split)
{
    int in_middle = laid.within && split && count > 1;
    struct row row = make_row(count, width, before_split(count, in_middle), 0, in_middle);

    row.sent = get_elements(row.memory + row.from, row.to - row.from, width);
    copy_row(&row);
    return row;
}

/* What a lent row holds before the call. */
static void fill_old(uint8_t *octets, size_t len)
{
    static const uint8_t old[] = {0xAA, 0, 4, 0xFF};
    const uint8_t store[] = {laid.split & 1 ? 9 : 1, 3, 1, 14, 0, 1, 2, 15, 0, 1, 3, 16, 0, 1, 0, 10, 2};

    for (size_t k = 0, at = laid.split; laid.old == 4 && k < len; k++, at++)
        octets[k] = old[(at ^ at >> 2 ^ at >> 5) & 3];
    if (laid.old != 4)
        memset(octets, laid.old == 6 ? 0xFF : old[laid.old & 3], len);
    if (laid.old == 6)
        memcpy(octets, store, len < sizeof store ? len : sizeof store);
}

/* Of a long row both ends hold it, and all between is zeros. Where no row is for reading, this one may be split. */
static struct row lent_row(uint64_t count, size_t width, int split)
{
    int in_middle = laid.within && count > (split ? 1 : 0);
    uint64_t open = in_middle && !split ? 0 : before_split(count, in_middle);
    struct row row = make_row(count, width, open, 1, in_middle);
    size_t len = (size_t)count * width, some = len < OLD_MOST ? len : OLD_MOST;

    if (rows == EXACT)
        return row;
    fill_old(row.memory + row.from, some);
    if (some == OLD_MOST)
        fill_old(row.memory + row.to - some, some);
    if (rows == PAGES)
        set_access(&row, PROT_NONE);
    return row;
}

/* A lent row that holds what is sent, and is split for a call in the middle of this one as a row for reading is. */
static struct row filled_row(uint64_t count)
{
    int in_middle = laid.within && count > 1;
    struct row row = make_row(count, 1, before_split(count, in_middle), 1, in_middle);

    get_elements(row.memory + row.from, row.to - row.from, 1);
    if (rows == PAGES)
        set_access(&row, PROT_NONE);
    return row;
}

static int all_are(const uint8_t *octets, size_t len, uint8_t octet)
{
    int other = 0;

    for (size_t k = 0; k < len; k++)
        other |= octets[k] ^ octet;
    return other == 0;
}

/* 1 if anything but a lent row's own octets has changed. */
static uint64_t changed(const struct row *row)
{
    const uint8_t *first = row->memory + row->from, *end = row->memory + row->to;
    int as_it_was = all_are(row->memory, row->from, GUARD_OCTET) && all_are(end, row->size - row->to, GUARD_OCTET);

    if (!row->lent && row->copy) {
        size_t zeros = row->to - row->from - row->sent, some = zeros < EACH_END ? zeros : EACH_END;
        as_it_was = as_it_was && memcmp(first, row->copy, row->sent) == 0 && all_are(first + row->sent, some, 0)
                    && all_are(end - some, some, 0);
    }
    return as_it_was ? 0 : 1;
}

static void free_row(struct row *row)
{
    if (row->all)
        munmap(row->all, row->held);
    else
        free(row->memory);
    free(row->copy);
}

/* ---- Calls ----------------------------------------------------------------------------------- */

union answer {
    dsss_written written;
    dsss_record record;
    dsss_coming coming;
    dsss_found found;
    dsss_counted counted;
    dsss_text text;
    dsss_reason reason;
    dsss_settings settings;
    dsss_compared compared;
    uint64_t number;
};

enum { LENT_MOST = 4 }; /* rows lent for writing: op 14 has so many, every other at most one */

/* A call: its numbers as they are in the request, its report, its rows for reading and those lent for writing. The
 * second row of 8 is the list, and its recordings are rows of their own. */
struct call {
    uint64_t op, numbers[7];
    dsss_report report;
    struct row first, second, lent[LENT_MOST], *recordings;
    size_t sent; /* recordings */
    union answer answer;
};

static void run_compare(struct call *c)
{
    const uint64_t *n = c->numbers;
    struct row *lent = c->lent;

    c->answer.compared =
        dsss_compare(n[0], c->first.pointer, (size_t)n[1], c->second.pointer, (size_t)n[2], lent[0].pointer,
                     (size_t)n[3], lent[1].pointer, (size_t)n[4], lent[2].pointer, (size_t)n[5], lent[3].pointer,
                     (size_t)n[6]);
}

static void run(struct call *c)
{
    const uint64_t *n = c->numbers;
    const void *first = c->first.pointer, *second = c->second.pointer;
    uint8_t *lent = c->lent[0].pointer;

    memset(&c->answer, 0, sizeof c->answer);
    if (c->op == 14)
        run_compare(c);
    else if (c->op == 15)
        c->answer.record = dsss_read_1997(first, (size_t)n[0], lent, (size_t)n[1]);
    else if (c->op == 1)
        c->answer.written = dsss_write(n[0], n[1], n[2], n[3], first, (size_t)n[4], lent, (size_t)n[5]);
    else if (c->op == 2)
        c->answer.record = dsss_read_hard(n[0], first, (size_t)n[1], lent, (size_t)n[2]);
    else if (c->op == 3)
        c->answer.record = dsss_read_soft(n[0], first, (size_t)n[1], second, (size_t)n[2], lent, (size_t)n[3]);
    else if (c->op == 4)
        c->answer.record = dsss_read_bytes(n[0], first, (size_t)n[1], lent, (size_t)n[2]);
    else if (c->op == 5)
        c->answer.coming = dsss_read_front(n[0], first, (size_t)n[1]);
    else if (c->op == 6)
        c->answer.found = dsss_find(n[0], first, (size_t)n[1], n[2]);
    else if (c->op == 7)
        c->answer.counted = dsss_report_add(c->report, n[0], first, (size_t)n[1]);
    else if (c->op == 8)
        c->answer.counted = dsss_report_list(first, (size_t)n[0], second, (size_t)n[1]);
    else if (c->op == 9)
        c->answer.text = dsss_report_text(c->report, lent, (size_t)n[0]);
    else if (c->op == 10)
        c->answer.reason = dsss_why(n[0], first, (size_t)n[1], n[2]);
    else if (c->op == 11)
        c->answer.number = dsss_store_write(n[0], n[1], n[2], lent, (size_t)n[3]);
    else if (c->op == 12)
        c->answer.settings = dsss_store_read(first, (size_t)n[0]);
    else
        c->answer.number = dsss_store_change(lent, (size_t)n[0], n[1], n[2]);
}

static size_t answer_size(uint64_t op)
{
    static const size_t sizes[] = {sizeof(dsss_written), sizeof(dsss_record), sizeof(dsss_record),
                                   sizeof(dsss_record),  sizeof(dsss_coming), sizeof(dsss_found),
                                   sizeof(dsss_counted), sizeof(dsss_counted), sizeof(dsss_text),
                                   sizeof(dsss_reason),  sizeof(uint64_t),    sizeof(dsss_settings),
                                   sizeof(uint64_t),     sizeof(dsss_compared), sizeof(dsss_record)};

    return sizes[op - 1];
}

/* ---- A call in the middle of another --------------------------------------------------------- */

enum { OPS = 15, PARTS = 2 + LENT_MOST, TOUCHES = 24, NEAR = 64 };

static struct call kept[OPS];                /* the last call of each op that was kept, if it has an op */
static uint8_t *kept_octets[OPS][LENT_MOST]; /* and what it left in its lent rows */
static struct { uint8_t *from, *to; int open; } parts[PARTS];
static uint8_t *touch;                       /* the last touch of a part that was closed */
static unsigned touches;
static uint64_t differs;                     /* the guard's 4 */

static void set_part(size_t part, int open)
{
    size_t len = (size_t)(parts[part].to - parts[part].from);

    if (len > 0 && mprotect(parts[part].from, len, open ? PROT_READ | PROT_WRITE : PROT_NONE) != 0)
        _exit(1);
    parts[part].open = open;
}

static void run_kept(uint64_t op)
{
    struct call *c = &kept[op - 1];
    union answer before = c->answer;

    if (c->op == 0)
        return;
    run(c);
    if (memcmp(&before, &c->answer, sizeof before) != 0)
        differs = 4;
    c->answer = before;
    for (size_t k = 0; k < LENT_MOST; k++) {
        const struct row *lent = &c->lent[k];
        size_t len = lent->to - lent->from;
        if (len > 0 && memcmp(lent->memory + lent->from, kept_octets[op - 1][k], len) != 0)
            differs = 4;
        if (len > 0)
            memcpy(lent->memory + lent->from, kept_octets[op - 1][k], len);
    }
}

static uint64_t running; /* the op of the call that others are made in */

/* Emulators of x86-64 may begin a handler with a stack that is not at a multiple of 16, where calls want it. */
#ifdef __x86_64__
__attribute__((force_align_arg_pointer)) static void touched(int number, siginfo_t *info, void *context);
#endif

/* What touches two parts at once is let through: both are left open. The address of such a touch may be in the first of
 * them, which is open. */
static void touched(int number, siginfo_t *info, void *context)
{
    uint8_t *at = info->si_addr;
    size_t part = 0;

    (void)context;
    while (part < PARTS && (at + NEAR <= parts[part].from || at >= parts[part].to || parts[part].open))
        part++;
    if (part == PARTS) { /* a touch that is an error: made again, it ends the bridge */
        signal(number, SIG_DFL);
        return;
    }
    run_kept(running);
    if (running == 2 || running == 15)
        run_kept(running == 2 ? 15 : 2);
    int beside = touch && at - touch < NEAR && touch - at < NEAR;
    for (size_t other = 0; other < PARTS; other++)
        set_part(other, other == part || beside || touches >= TOUCHES);
    touch = at;
    touches++;
}

/* The parts of a call's rows: the first of a row that is split is open. Of 8 the list is split, of 11 and 13 the store,
 * of the others the first row. */
static void close_parts(struct call *c)
{
    struct row *split = c->op == 8 ? &c->second : c->op == 11 || c->op == 13 ? &c->lent[0] : &c->first;
    struct sigaction action = {0};

    memset(parts, 0, sizeof parts);
    if (split->all) {
        parts[0].from = split->all;
        parts[0].to = parts[1].from = split->edge;
        parts[1].to = split->edge + split->closed;
    }
    for (size_t k = 0; k < LENT_MOST; k++)
        if (c->lent[k].all && split != &c->lent[k]) {
            parts[2 + k].from = c->lent[k].edge;
            parts[2 + k].to = c->lent[k].edge + c->lent[k].closed;
        }
    for (size_t part = 0; part < PARTS; part++)
        set_part(part, part == 0);
    touch = NULL;
    touches = 0;
    running = c->op;
    action.sa_sigaction = touched;
    action.sa_flags = SA_SIGINFO;
    sigaction(SIGSEGV, &action, NULL);
    sigaction(SIGBUS, &action, NULL);
}

static void open_parts(void)
{
    for (size_t part = 0; part < PARTS; part++)
        set_part(part, 1);
    signal(SIGSEGV, SIG_DFL);
    signal(SIGBUS, SIG_DFL);
}

/* ---- Requests -------------------------------------------------------------------------------- */

/* Q in the memory of I, or I in that of Q, or so the recordings of 14: the first row holds both, and the second has a
 * pointer alone. */
static void get_one_row(struct call *c, size_t width)
{
    const size_t i_len = (size_t)c->numbers[1] * width, q_len = (size_t)c->numbers[2] * width;
    const size_t shift = laid.shift * width, i_at = laid.turned ? shift : 0, q_at = laid.turned ? 0 : shift;
    const size_t i_end = i_at + i_len, q_end = q_at + q_len, end = i_end > q_end ? i_end : q_end;
    const size_t both = i_end < q_end ? i_end : q_end; /* from the shift on to here, both have elements */
    struct row *row = &c->first;

    *row = make_row(end / width, width, end / width, 0, 0);
    uint8_t *at = row->memory + row->from, *q = calloc(q_len > 0 ? q_len : 1, 1);
    if (!q)
        die("no memory for a row");
    get_elements(at + i_at, i_len, width);
    get_elements(q, q_len, width);
    if (both > shift && memcmp(at + shift, q + (shift - q_at), both - shift) != 0)
        die("two rows that cannot be one");
    memcpy(at + q_at, q, q_len);
    free(q);
    row->sent = end;
    copy_row(row);
    if (laid.turned)
        row->pointer = at + i_at;
    c->second.pointer = at + q_at;
}

/* Where a recording stands in another one, at its beginning or its end; NULL if nowhere. */
static uint8_t *found_in(const struct row *one, const struct row *other)
{
    size_t len = one->to - one->from, longer = other->to - other->from;
    const uint8_t *chips = one->memory + one->from;
    uint8_t *first = other->memory + other->from;

    if (len == 0 || len > longer)
        return NULL;
    if (memcmp(chips, first, len) == 0)
        return first;
    return memcmp(chips, first + longer - len, len) == 0 ? first + longer - len : NULL;
}

static void get_recordings(struct call *c)
{
    uint64_t sent = get_number();

    if (sent > LIST_MAX || sent > c->numbers[1])
        die("a list is too long");
    c->sent = (size_t)sent;
    c->recordings = calloc(sent > 0 ? c->sent : 1, sizeof *c->recordings);
    if (!c->recordings)
        die("no memory for a list");
    for (size_t k = 0; k < c->sent; k++) {
        uint8_t *shared = NULL;
        c->recordings[k] = read_row(get_number(), 1, 0);
        for (size_t before = 1; laid.shared && !shared && before <= 4 && before <= k; before++)
            shared = found_in(&c->recordings[k], &c->recordings[k - before]);
        if (shared)
            c->recordings[k].pointer = shared;
    }
}

/* The kinds, and a row of so many recordings, each a row of its own. */
static void get_list(struct call *c)
{
    c->numbers[0] = get_number();
    c->first = read_row(c->numbers[0], sizeof(uint64_t), 0);
    uint64_t count = c->numbers[1] = get_number();
    get_recordings(c);
    int in_middle = laid.within && count > 1;
    struct row *list = &c->second;
    *list = make_row(count, sizeof(dsss_chips), before_split(count, in_middle), 0, in_middle);
    list->sent = c->sent * sizeof(dsss_chips);
    if (rows == EXACT && count > c->sent)
        memset(list->memory + list->from, 0, list->to - list->from);
    for (size_t k = 0; k < c->sent; k++) {
        dsss_chips one = {c->recordings[k].pointer, c->recordings[k].to - c->recordings[k].from};
        memcpy(list->memory + list->from + k * sizeof one, &one, sizeof one);
    }
    copy_row(list);
}

/* The row of 5 and of 6: no chip behind the front may be looked at, and none at all where 6 is refused by its kind or
 * by its number of offsets. */
static void get_chips_to(struct call *c)
{
    uint64_t kind = c->numbers[0], len = c->numbers[1], front = kind == 0 ? DSSS_FRONT_LONG : DSSS_FRONT_SHORT;
    int refused = kind > DSSS_SHORT || c->numbers[2] < 1 || c->numbers[2] > DSSS_OFFSETS_MAX;
    uint64_t open = c->op == 5 ? (len < front ? len : front) : refused ? 0 : len;

    c->first = laid.within ? read_row(len, 1, 1) : read_row_to(len, 1, open);
}

/* Two rows for reading, their lengths being the second number and the third. */
static void get_two_rows(struct call *c, size_t width)
{
    if (laid.shared) {
        get_one_row(c, width);
        return;
    }
    c->first = read_row(c->numbers[1], width, 1);
    c->second = read_row(c->numbers[2], width, 0);
}

/* The lent rows of 14: two of numbers, two of octets. */
static void lend_four(struct call *c)
{
    for (size_t k = 0; k < LENT_MOST; k++)
        c->lent[k] = lent_row(c->numbers[3 + k], k < 2 ? sizeof(uint64_t) : 1, 0);
}

static void get_call(struct call *c)
{
    static const unsigned counts[OPS] = {6, 3, 4, 3, 2, 3, 2, 0, 1, 3, 4, 1, 3, 7, 2};
    uint64_t *n = c->numbers;

    memset(c, 0, sizeof *c);
    c->op = get_number();
    if (c->op < 1 || c->op > OPS)
        die("an op that is not 1 to 15");
    get_laid();
    laid.within = laid.within && kept[c->op - 1].op != 0;
    if (c->op == 7 || c->op == 9)
        get(&c->report, sizeof c->report);
    get(n, counts[c->op - 1] * sizeof n[0]);
    if (c->op == 3 || c->op == 14)
        get_two_rows(c, c->op == 3 ? sizeof(float) : 1);
    else if (c->op == 5 || c->op == 6)
        get_chips_to(c);
    else if (c->op == 8)
        get_list(c);
    else if (c->op == 12 || c->op == 15)
        c->first = read_row(n[0], 1, 1);
    else if (c->op == 13)
        c->lent[0] = filled_row(n[0]);
    else if (c->op != 9 && c->op != 11)
        c->first = read_row(c->op == 1 ? n[4] : n[1], 1, 1);
    if (c->op < 5 || c->op == 9 || c->op == 11 || c->op == 15)
        c->lent[0] = lent_row(n[counts[c->op - 1] - 1], 1, c->op == 11);
    if (c->op == 14)
        lend_four(c);
}

/* ---- Answers --------------------------------------------------------------------------------- */

/* A find over chips that begin where memory begins: a look before them kills the bridge. 2 if it answers otherwise. */
static uint64_t find_from_edge(const struct call *c)
{
    size_t len = c->first.to - c->first.from, before = in_pages(1), size = before + in_pages(len);
    uint8_t *all = mmap(NULL, size, PROT_READ | PROT_WRITE, MAP_PRIVATE | MAP_ANONYMOUS, -1, 0);

    if (all == MAP_FAILED)
        die("no memory for a row");
    memcpy(all + before, c->first.memory + c->first.from, c->first.sent);
    if (mprotect(all, before, PROT_NONE) != 0)
        die("cannot close a row");
    dsss_found found = dsss_find(c->numbers[0], len > 0 ? all + before : NULL, len, c->numbers[2]);
    munmap(all, size);
    return memcmp(&found, &c->answer.found, sizeof found) != 0 ? 2 : 0;
}

/* Makes the call, twice if so asked: over what it has left in the lent row. */
static uint64_t make_call(struct call *c)
{
    uint64_t guard = 0;

    differs = 0;
    if (laid.within) {
        close_parts(c);
        run(c);
        open_parts();
    } else
        run(c);
    if (laid.old == 5) {
        union answer before = c->answer;
        run(c);
        guard = memcmp(&before, &c->answer, sizeof before) != 0 ? 2 : 0;
    }
    if (rows == PAGES)
        set_access(&c->first, PROT_READ);
    if (rows == PAGES && c->op == 6)
        guard |= find_from_edge(c);
    return guard | differs;
}

/* `count` chips of the recording from `at` on, by their pointer, as far as they are in it. */
static void put_part(const struct call *c)
{
    uint64_t len = c->numbers[1], at = c->answer.coming.at, count = c->answer.coming.count;
    uint64_t rest = at < len ? len - at : 0;

    if (rest > 0)
        put((const uint8_t *)c->first.pointer + at, (size_t)(count < rest ? count : rest));
}

static void free_call(struct call *c)
{
    for (size_t k = 0; k < c->sent; k++)
        free_row(&c->recordings[k]);
    free(c->recordings);
    free_row(&c->first);
    free_row(&c->second);
    for (size_t k = 0; k < LENT_MOST; k++)
        free_row(&c->lent[k]);
}

/* Whether a call can be kept: it is small, and its rows are not pages. */
static int can_be_kept(const struct call *c)
{
    const struct row *of[2 + LENT_MOST] = {&c->first, &c->second};

    for (size_t k = 0; k < LENT_MOST; k++)
        of[2 + k] = &c->lent[k];
    for (size_t k = 0; k < 2 + LENT_MOST; k++)
        if (of[k]->all || of[k]->size > KEPT_MOST)
            return 0;
    return rows == GUARDS && !(c->op == 8 && c->numbers[1] > 40);
}

/* Keeps a call to be made again in the middle of another, if it can be. */
static int keep(const struct call *c)
{
    size_t at = (size_t)c->op - 1;

    if (!can_be_kept(c))
        return 0;
    if (kept[at].op != 0)
        free_call(&kept[at]);
    kept[at] = *c;
    for (size_t k = 0; k < LENT_MOST; k++) {
        size_t len = c->lent[k].to - c->lent[k].from;
        free(kept_octets[at][k]);
        kept_octets[at][k] = malloc(len > 0 ? len : 1);
        if (!kept_octets[at][k])
            die("no memory for a call");
        if (len > 0)
            memcpy(kept_octets[at][k], c->lent[k].memory + c->lent[k].from, len);
    }
    return 1;
}

/* A lent row of 14, without the zeros that end it. */
static void put_row(const struct row *row, size_t width)
{
    const uint8_t *first = row->memory + row->from;
    size_t len = row->to - row->from;

    while (len > 0 && first[len - 1] == 0)
        len--;
    uint64_t sent = (len + width - 1) / width;
    put(&sent, sizeof sent);
    put(first, (size_t)sent * width);
}

/* What the call left in its lent rows. */
static void put_lent(const struct call *c)
{
    for (size_t k = 0; c->op == 14 && k < LENT_MOST; k++)
        put_row(&c->lent[k], k < 2 ? sizeof(uint64_t) : 1);
    if (c->op != 14)
        put(c->lent[0].memory + c->lent[0].from, c->lent[0].to - c->lent[0].from);
}

static void answer_call(void)
{
    struct call c;

    get_call(&c);
    uint64_t guard = make_call(&c);
    put(&c.answer, answer_size(c.op));
    put_lent(&c);
    if (c.op == 5)
        put_part(&c);
    for (size_t k = 0; k < c.sent; k++)
        guard |= changed(&c.recordings[k]);
    guard |= changed(&c.first) | changed(&c.second);
    for (size_t k = 0; k < LENT_MOST; k++)
        guard |= changed(&c.lent[k]);
    put(&guard, sizeof guard);
    if (!keep(&c))
        free_call(&c);
}

int main(int argc, char **argv)
{
    if (argc > 2 || (argc == 2 && strcmp(argv[1], "pages") != 0 && strcmp(argv[1], "exact") != 0))
        die("usage: bridge [pages | exact]");
    if (argc == 2)
        rows = strcmp(argv[1], "pages") == 0 ? PAGES : EXACT;
    while (input_at < input_end || more())
        answer_call();
    return 0;
}
