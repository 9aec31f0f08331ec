/* bench.c: how long the library takes beside plain C, in one run.
 *
 *   bench [milliseconds]     the least time of one measurement, 20 if not given
 *
 * Each call is first made once by both, and the answers and buffers must agree, leads too. The count of
 * calls is then doubled until one measurement lasts long enough; the time shown is the median of five,
 * the two measured in turn. Buffers have just the size needed, and each call fills them, as in use. Both
 * are built with the same optimisation.
 *
 * The variable DSSS_EMULATED, set by scripts/x86run, says that no real processor is timed: chips
 * per second and the multiple of 11 Mchip/s are left out then. */
#define _POSIX_C_SOURCE 200809L
#include "pairs.h"
#include "recordings.h"
#include "stores.h"
#include "bench_leaves.h"

#include <inttypes.h>
#include <stdio.h>
#include <stdlib.h>
#include <string.h>
#include <sys/utsname.h>
#include <time.h>

enum { OCTETS = 1500, ROUNDS = 5 };

struct library {
    dsss_written (*write)(uint64_t, uint64_t, uint64_t, uint64_t, const uint8_t *, size_t, uint8_t *, size_t);
    dsss_record (*read_hard)(uint64_t, const uint8_t *, size_t, uint8_t *, size_t);
    dsss_record (*read_soft)(uint64_t, const float *, size_t, const float *, size_t, uint8_t *,
                             size_t);
    dsss_record (*read_bytes)(uint64_t, const int8_t *, size_t, uint8_t *, size_t);
    dsss_record (*read_1997)(const uint8_t *, size_t, uint8_t *, size_t);
    dsss_coming (*read_front)(uint64_t, const uint8_t *, size_t);
    dsss_found (*find)(uint64_t, const uint8_t *, size_t, uint64_t);
    dsss_reason (*why)(uint64_t, const uint8_t *, size_t, uint64_t);
    dsss_compared (*compare)(uint64_t, const uint8_t *, size_t, const uint8_t *, size_t, uint64_t *, size_t, uint64_t *,
                             size_t, uint8_t *, size_t, uint8_t *, size_t);
    dsss_counted (*report_add)(dsss_report, uint64_t, const uint8_t *, size_t);
    dsss_text (*report_text)(dsss_report, uint8_t *, size_t);
    uint64_t (*store_write)(uint64_t, uint64_t, uint64_t, uint8_t *, size_t);
    dsss_settings (*store_read)(const uint8_t *, size_t);
    uint64_t (*store_change)(uint8_t *, size_t, uint64_t, uint64_t);
    void (*count)(const float *, size_t, int32_t *, size_t);
    uint64_t (*decide)(uint64_t, const float *, size_t, const float *, size_t);
    uint64_t (*eleven)(uint64_t, const uint8_t *, size_t, const int8_t *, size_t, const float *, size_t, const float *,
                       size_t);
};

enum { DSSS, PLAIN, BOTH };

static const struct library libraries[BOTH] = {
    {dsss_write, dsss_read_hard, dsss_read_soft, dsss_read_bytes, dsss_read_1997, dsss_read_front, dsss_find, dsss_why,
     dsss_compare, dsss_report_add, dsss_report_text, dsss_store_write, dsss_store_read, dsss_store_change,
     timed_count, timed_decide, timed_eleven},
    {plain_write, plain_read_hard, plain_read_soft, plain_read_bytes, plain_read_1997, plain_read_front, plain_find,
     plain_why, plain_compare, plain_report_add, plain_report_text, plain_store_write, plain_store_read,
     plain_store_change, plain_count, plain_decide, plain_eleven},
};

static const struct {
    uint64_t code;
    const char *name;
} rates[] = {{DSSS_RATE_1, "1"}, {DSSS_RATE_2, "2"}, {DSSS_RATE_5_5, "5.5"}, {DSSS_RATE_11, "11"}};

static const char *const kinds[] = {"long", "short"};

/* The rows of the call under measurement. */
static uint8_t payload[DSSS_PAYLOAD_MAX], chips[DSSS_CHIPS_MAX], octets[DSSS_PAYLOAD_MAX], text[DSSS_TEXT_MAX];
static uint8_t store[DSSS_STORE_MAX];
static float i_row[DSSS_CHIPS_MAX], q_row[DSSS_CHIPS_MAX];
static int8_t bytes[2 * DSSS_CHIPS_MAX];
static uint64_t kind, rate;
static size_t payload_len, chips_len, store_len, offsets;

static double limit = 0.02; /* seconds */
static int emulated;
static volatile uint64_t sink; /* keeps what is computed from being dropped */
static dsss_record told;       /* the answer of the last read */

static void fail(const char *message)
{
    fprintf(stderr, "bench: %s\n", message);
    exit(1);
}

/* ---- The calls ------------------------------------------------------------------------------- */

/* One call of a library. */
typedef uint64_t (*task_fn)(const struct library *);

static uint64_t write_task(const struct library *l)
{
    return l->write(kind, rate, 0, 0, payload, payload_len, chips, chips_len).chips;
}

static uint64_t read_hard_task(const struct library *l)
{
    told = l->read_hard(kind, chips, chips_len, octets, payload_len);
    return told.used;
}

static uint64_t read_soft_task(const struct library *l)
{
    told = l->read_soft(kind, i_row, chips_len, q_row, chips_len, octets, payload_len);
    return told.used;
}

static uint64_t read_bytes_task(const struct library *l)
{
    told = l->read_bytes(kind, bytes, 2 * chips_len, octets, payload_len);
    return told.used;
}

static uint64_t read_front_task(const struct library *l)
{
    return l->read_front(kind, chips, chips_len).used;
}

static uint64_t find_task(const struct library *l)
{
    return l->find(kind, chips, chips_len, offsets).offset;
}

enum { TASKS = 4 };

static const struct {
    const char *name;
    task_fn task;
} tasks[TASKS] = {{"write", write_task},
                  {"read hard", read_hard_task},
                  {"read soft", read_soft_task},
                  {"read bytes", read_bytes_task}};

/* Noise, the same in every run: xorshift. */
static uint32_t noise(void)
{
    static uint32_t state = 2463534242u;

    state ^= state << 13;
    state ^= state >> 17;
    state ^= state << 5;
    return state;
}

/* A soft recording of the frame: each chip 0.9 strong, with noise of up to 0.25 on I and Q. */
static void record_soft(void)
{
    static const float level[5] = {0.9f, 0.0f, -0.9f, 0.0f, 0.9f};

    for (size_t k = 0; k < chips_len; k++) {
        i_row[k] = level[chips[k]] + (float)(noise() % 512) / 1024.0f - 0.25f;
        q_row[k] = level[(chips[k] + 3) % 4] + (float)(noise() % 512) / 1024.0f - 0.25f;
    }
}

/* A recording of signed bytes of the frame: each chip 58 strong, a full one being 64, with noise of up to 16. */
static void record_bytes(void)
{
    static const int level[4] = {58, 0, -58, 0};

    for (size_t k = 0; k < chips_len; k++) {
        bytes[2 * k] = (int8_t)(level[chips[k]] + (int)(noise() % 32) - 16);
        bytes[2 * k + 1] = (int8_t)(level[(chips[k] + 3) % 4] + (int)(noise() % 32) - 16);
    }
}

/* Sets the rows up for one frame. */
static void set_up(uint64_t new_kind, uint64_t new_rate, size_t n)
{
    kind = new_kind;
    rate = new_rate;
    payload_len = n;
    chips_len = plain_write(kind, rate, 0, 0, payload, n, chips, DSSS_CHIPS_MAX).chips;
    if (chips_len == 0)
        fail("plain C refuses to write");
    record_soft();
    record_bytes();
}

/* Both answer the same, and the payload comes back. */
static void agree(void)
{
    static uint8_t first[DSSS_CHIPS_MAX];
    dsss_record answers[TASKS];

    for (size_t l = 0; l < BOTH; l++) {
        if (write_task(&libraries[l]) != chips_len)
            fail("a write is refused");
        if (l == 0)
            memcpy(first, chips, chips_len);
        if (memcmp(first, chips, chips_len) != 0)
            fail("the frames differ");
        for (size_t t = 1; t < TASKS; t++) {
            memset(octets, 0, sizeof octets);
            if (tasks[t].task(&libraries[l]) != chips_len
                || memcmp(payload, octets, payload_len) != 0)
                fail("a payload does not come back");
            if (l == 0)
                answers[t] = told;
            if (memcmp(&answers[t], &told, sizeof told) != 0)
                fail("the answers differ");
        }
    }
}

/* ---- Measuring ------------------------------------------------------------------------------- */

/* Processor time, so that other work on the machine does not count. */
static double seconds(void)
{
    struct timespec now;

    clock_gettime(CLOCK_PROCESS_CPUTIME_ID, &now);
    return (double)now.tv_sec + 1e-9 * (double)now.tv_nsec;
}

static double time_of(task_fn task, const struct library *l, uint64_t count)
{
    double start = seconds();

    for (uint64_t k = 0; k < count; k++)
        sink += task(l);
    return seconds() - start;
}

static int by_size(const void *a, const void *b)
{
    double x = *(const double *)a, y = *(const double *)b;

    return (x > y) - (x < y);
}

/* Nanoseconds a call, of both. */
static void measure(task_fn task, double *ns)
{
    uint64_t count[BOTH] = {1, 1};
    double times[BOTH][ROUNDS];

    for (size_t l = 0; l < BOTH; l++)
        while (time_of(task, &libraries[l], count[l]) < limit)
            count[l] *= 2;
    for (size_t round = 0; round < ROUNDS; round++)
        for (size_t l = 0; l < BOTH; l++)
            times[l][round] = time_of(task, &libraries[l], count[l]) * 1e9 / (double)count[l];
    for (size_t l = 0; l < BOTH; l++) {
        qsort(times[l], ROUNDS, sizeof times[l][0], by_size);
        ns[l] = times[l][ROUNDS / 2];
    }
}

/* ---- The tables ------------------------------------------------------------------------------ */

static void head(void)
{
    struct utsname system;

    printf("dsss (version %d.%d.%d) beside plain C\n", DSSS_VERSION_MAJOR, DSSS_VERSION_MINOR, DSSS_VERSION_PATCH);
    printf("processor time, median of %d, at least %.0f ms each\n", ROUNDS, limit * 1000);
    printf("machine %s, compiler of plain C %s\n", uname(&system) < 0 ? "?" : system.machine,
           __VERSION__);
    if (emulated)
        printf("UNDER AN EMULATOR: times are the emulator's; chips per second and the multiple of\n"
               "11 Mchip/s are not printed\n");
    printf("ratio: time of dsss / time of plain C, below 1 if dsss is faster\n");
}

/* A line of whole calls, for a frame. Answers the time of dsss. `more` is the time for each octet more than the line
 * before has: it stays the same if the cost is linear. */
static double one_line(size_t t, uint64_t new_kind, size_t r, size_t n, size_t n_before, double before)
{
    double ns[BOTH];

    set_up(new_kind, rates[r].code, n);
    agree();
    measure(tasks[t].task, ns);
    printf("%-10s  %-5s  %4s  %6zu  %7zu  %12.0f  %12.0f  %6.2f", tasks[t].name, kinds[kind], rates[r].name,
           payload_len, chips_len, ns[DSSS], ns[PLAIN], ns[DSSS] / ns[PLAIN]);
    if (n_before > 0)
        printf("  %8.2f", (ns[DSSS] - before) / (double)(n - n_before));
    else
        printf("  %8s", "");
    if (!emulated) {
        double rate_of_chips = (double)chips_len * 1e9 / ns[DSSS];
        printf("  %9.1f  %8.2f", rate_of_chips / 1e6, rate_of_chips / 11e6);
    }
    printf("\n");
    fflush(stdout);
    return ns[DSSS];
}

static void whole_calls(void)
{
    static const size_t sizes[] = {1, 10, 100, OCTETS, DSSS_PAYLOAD_MAX};
    double last = 0;

    printf("\nwhole calls; more: ns of dsss for each octet more than in the line before\n");
    printf("%-10s  %-5s  %4s  %6s  %7s  %12s  %12s  %6s  %8s%s\n", "call", "kind", "rate", "octets", "chips", "dsss ns",
           "plain ns", "ratio", "more", emulated ? "" : "    Mchip/s  x 11 M/s");
    for (size_t t = 0; t < TASKS; t++)
        for (size_t r = 0; r < 4; r++) {
            for (size_t s = 0; s < sizeof sizes / sizeof sizes[0]; s++)
                last = one_line(t, DSSS_LONG, r, sizes[s], s > 0 ? sizes[s - 1] : 0, last);
            if (r > 0)
                one_line(t, DSSS_SHORT, r, OCTETS, 0, 0);
        }
}

/* Both libraries tell the same of the front, and what they tell is the frame. */
static void fronts_agree(void)
{
    dsss_coming first = libraries[DSSS].read_front(kind, chips, chips_len);
    dsss_coming second = libraries[PLAIN].read_front(kind, chips, chips_len);

    if (memcmp(&first, &second, sizeof first) != 0)
        fail("what is coming differs");
    if (first.n != payload_len || first.used != chips_len || first.at + first.count != chips_len)
        fail("what is coming is not the frame");
}

/* What is coming, by n. The time is the same for all, as no payload chip is looked at. */
static void fronts(void)
{
    static const size_t sizes[] = {10, DSSS_PAYLOAD_MAX};
    double ns[BOTH];

    printf("\nreads of the front, which look at no payload chip, by octets, long\n");
    printf("%-10s  %4s  %6s  %7s  %12s  %12s  %6s\n", "call", "rate", "octets", "chips", "dsss ns", "plain ns",
           "ratio");
    for (size_t r = 0; r < 4; r += 3)
        for (size_t s = 0; s < sizeof sizes / sizeof sizes[0]; s++) {
            set_up(DSSS_LONG, rates[r].code, sizes[s]);
            fronts_agree();
            measure(read_front_task, ns);
            printf("%-10s  %4s  %6zu  %7zu  %12.0f  %12.0f  %6.2f\n", "read front", rates[r].name, payload_len,
                   chips_len, ns[0], ns[1], ns[0] / ns[1]);
            fflush(stdout);
        }
}

/* ---- Finds ----------------------------------------------------------------------------------- */

/* Both libraries find the same, and what they must. */
static void finds_agree(size_t which)
{
    dsss_found first = libraries[DSSS].find(kind, chips, chips_len, offsets);
    dsss_found second = libraries[PLAIN].find(kind, chips, chips_len, offsets);

    if (memcmp(&first, &second, sizeof first) != 0)
        fail("what is found differs");
    if (!finds_right(which, offsets, first))
        fail("what is found is not the frame");
}

/* A line of finds in a recording, by both, and how many reads of a long front each takes. `each` is the time for an
 * offset: it does not rise with their number. */
static void find_line(size_t which, uint64_t new_kind, size_t most, const double *front)
{
    double ns[BOTH];

    kind = new_kind;
    offsets = most;
    chips_len = lay_recording(which, kind, offsets, chips);
    finds_agree(which);
    measure(find_task, ns);
    printf("%-10s  %-8s  %-5s  %7zu  %12.0f  %12.0f  %6.2f  %8.2f  %11.2f  %12.2f\n", "find", recordings[which],
           kinds[kind], offsets, ns[DSSS], ns[PLAIN], ns[DSSS] / ns[PLAIN], ns[DSSS] / (double)offsets,
           ns[DSSS] / front[DSSS], ns[PLAIN] / front[PLAIN]);
    fflush(stdout);
}

static void finds(void)
{
    static const struct {
        size_t in;
        uint64_t kind;
        size_t offsets;
    } lines[] = {{IN_NOISE, DSSS_LONG, 1},
                 {IN_NOISE, DSSS_LONG, 64},
                 {IN_NOISE, DSSS_LONG, 512},
                 {IN_NOISE, DSSS_LONG, DSSS_OFFSETS_MAX},
                 {IN_LOST, DSSS_LONG, DSSS_OFFSETS_MAX},
                 {IN_LAST, DSSS_LONG, DSSS_OFFSETS_MAX},
                 {IN_UNUSABLE, DSSS_LONG, DSSS_OFFSETS_MAX},
                 {IN_SFDS, DSSS_LONG, DSSS_OFFSETS_MAX},
                 {IN_NOISE, DSSS_SHORT, DSSS_OFFSETS_MAX},
                 {IN_LAST, DSSS_SHORT, DSSS_OFFSETS_MAX}};
    double front[BOTH];

    set_up(DSSS_LONG, DSSS_RATE_1, 10);
    measure(read_front_task, front);
    printf("\nfinds in noise, in lost chips, of a frame at the last offset, in noise with an unusable chip in %d, and\n"
           "in SFDs one after the other; each: ns of dsss for an offset; fronts: time by that of a read of a long\n"
           "front, by the same\n",
           EACH);
    printf("%-10s  %-8s  %-5s  %7s  %12s  %12s  %6s  %8s  %11s  %12s\n", "call", "in", "kind", "offsets", "dsss ns",
           "plain ns", "ratio", "each", "dsss fronts", "plain fronts");
    for (size_t k = 0; k < sizeof lines / sizeof lines[0]; k++)
        find_line(lines[k].in, lines[k].kind, lines[k].offsets, front);
}

/* ---- Reasons --------------------------------------------------------------------------------- */

static uint64_t why_task(const struct library *l)
{
    return l->why(kind, chips, chips_len, payload_len).number;
}

/* Both libraries have the reason that a read must be refused with, or none. */
static void reasons_agree(uint64_t number)
{
    dsss_reason first = libraries[DSSS].why(kind, chips, chips_len, payload_len);
    dsss_reason second = libraries[PLAIN].why(kind, chips, chips_len, payload_len);

    if (memcmp(&first, &second, sizeof first) != 0)
        fail("the reasons differ");
    if (first.number != number)
        fail("a reason is not the one expected");
}

/* A line of a call, by both, and how many hard reads of the same recording each takes. */
static void beside_read_line(const char *name, task_fn task, const char *what, const char *rate_name)
{
    double ns[BOTH], read[BOTH];

    measure(read_hard_task, read);
    measure(task, ns);
    printf("%-10s  %-8s  %4s  %6zu  %7zu  %12.0f  %12.0f  %6.2f  %10.2f  %11.2f\n", name, what, rate_name, payload_len,
           chips_len, ns[DSSS], ns[PLAIN], ns[DSSS] / ns[PLAIN], ns[DSSS] / read[DSSS], ns[PLAIN] / read[PLAIN]);
    fflush(stdout);
}

static void beside_read_head(void)
{
    printf("%-10s  %-8s  %4s  %6s  %7s  %12s  %12s  %6s  %10s  %11s\n", "call", "of", "rate", "octets", "chips",
           "dsss ns", "plain ns", "ratio", "dsss reads", "plain reads");
}

/* A frame that is read takes longest: all of it is looked at. */
static void whys(void)
{
    printf("\nwhy a read is refused, of frames that are not and of one refused by its CRC, long; reads: time by that\n"
           "of a hard read of the same recording, by the same\n");
    beside_read_head();
    for (size_t r = 0; r < 4; r++) {
        set_up(DSSS_LONG, rates[r].code, OCTETS);
        reasons_agree(0);
        beside_read_line("why", why_task, "a frame", rates[r].name);
    }
    spoil_crc(kind, chips);
    reasons_agree(DSSS_REFUSED_CRC);
    beside_read_line("why", why_task, "its CRC", rates[3].name);
}

/* ---- Reads as the guides of 1997 do ---------------------------------------------------------- */

static uint64_t read_1997_task(const struct library *l)
{
    told = l->read_1997(chips, chips_len, octets, payload_len);
    return told.used;
}

/* Both libraries answer as their hard read does, or refuse the frame with 13, its LENGTH and an empty buffer. */
static void guides_agree(int know)
{
    static const uint8_t zeros[DSSS_PAYLOAD_MAX];

    for (size_t l = 0; l < BOTH; l++) {
        read_hard_task(&libraries[l]);
        dsss_record refused = {DSSS_REFUSED_SIGNAL, 0, 0, told.length, 0, 0, 0, 0, 0}, right = know ? told : refused;
        read_1997_task(&libraries[l]);
        if (memcmp(&right, &told, sizeof told) != 0 || memcmp(know ? payload : zeros, octets, payload_len) != 0)
            fail("a read as the guides of 1997 do is not the one expected");
    }
}

/* A frame that they know takes as long as a hard read of it, one that they refuse as long as its front. */
static void guides(void)
{
    printf("\nreads as the guides of 1997 do, of frames that they know and of one that they refuse, long; reads: time\n"
           "by that of a hard read of the same recording, by the same\n");
    beside_read_head();
    for (size_t r = 0; r < 3; r++) {
        int know = rates[r].code <= DSSS_RATE_2;
        set_up(DSSS_LONG, rates[r].code, OCTETS);
        guides_agree(know);
        beside_read_line("read 1997", read_1997_task, know ? "a frame" : "refused", rates[r].name);
    }
}

/* ---- Comparisons ----------------------------------------------------------------------------- */

static uint8_t second[DSSS_CHIPS_MAX], octets_b[DSSS_PAYLOAD_MAX];
static uint64_t chip_row[DSSS_LIST_PLACES(DSSS_CHIPS_MAX)], octet_row[DSSS_LIST_PLACES(DSSS_PAYLOAD_MAX)];
static size_t chip_places; /* just those of the chips that differ */

static dsss_compared compare_by(const struct library *l)
{
    return l->compare(kind, chips, chips_len, second, chips_len, chip_row, chip_places, octet_row, 0, octets,
                      payload_len, octets_b, payload_len);
}

static uint64_t compare_task(const struct library *l)
{
    return compare_by(l).chips;
}

static uint64_t two_reads_task(const struct library *l)
{
    return l->read_hard(kind, chips, chips_len, octets, payload_len).used
           + l->read_hard(kind, second, chips_len, octets_b, payload_len).used;
}

/* Both libraries accept both recordings, and list the same chips, as many as differ. */
static void comparisons_agree(size_t differ)
{
    static uint64_t first_row[DSSS_LIST_PLACES(DSSS_CHIPS_MAX)];
    dsss_compared first = compare_by(&libraries[DSSS]);

    memcpy(first_row, chip_row, chip_places * sizeof chip_row[0]);
    dsss_compared other = compare_by(&libraries[PLAIN]);
    if (memcmp(&first, &other, sizeof first) != 0
        || memcmp(first_row, chip_row, chip_places * sizeof chip_row[0]) != 0)
        fail("the comparisons differ");
    if (first.a.number != 0 || first.b.number != 0 || first.chips != differ || first.octets != 0)
        fail("a comparison is not the one expected");
}

/* A line of comparisons with a second recording, by both, and what a chip takes beside two hard reads of the same. */
static void compare_line(size_t which)
{
    double ns[BOTH], reads[BOTH];
    size_t differ = lay_second(which, chips, chips_len, second);

    chip_places = DSSS_LIST_PLACES(differ);
    comparisons_agree(differ);
    measure(two_reads_task, reads);
    measure(compare_task, ns);
    printf("%-10s  %-8s  %4s  %6zu  %7zu  %12.0f  %12.0f  %6.2f  %10.3f  %11.3f\n", "compare",
           second_recordings[which], rates[3].name, payload_len, chips_len, ns[DSSS], ns[PLAIN], ns[DSSS] / ns[PLAIN],
           (ns[DSSS] - reads[DSSS]) / (double)chips_len, (ns[PLAIN] - reads[PLAIN]) / (double)chips_len);
    fflush(stdout);
}

static void comparisons(void)
{
    printf("\ncomparisons of a frame with equal chips, with one chip in %d turned, and with all chips turned, long;\n"
           "a chip: ns for each chip beside two hard reads of the same recordings, by the same\n",
           FEW);
    printf("%-10s  %-8s  %4s  %6s  %7s  %12s  %12s  %6s  %10s  %11s\n", "call", "with", "rate", "octets", "chips",
           "dsss ns", "plain ns", "ratio", "dsss chip", "plain chip");
    set_up(DSSS_LONG, DSSS_RATE_11, OCTETS);
    for (size_t which = 0; which < PAIRS; which++)
        compare_line(which);
}

/* ---- Reports --------------------------------------------------------------------------------- */

static uint64_t add_empty_task(const struct library *l)
{
    return l->report_add(month, kind, NULL, 0).report.seen;
}

static uint64_t add_task(const struct library *l)
{
    return l->report_add(month, kind, chips, chips_len).report.airtime;
}

static uint64_t read_with_room_task(const struct library *l)
{
    return l->read_hard(kind, chips, chips_len, octets, DSSS_PAYLOAD_MAX).used;
}

static uint64_t text_task(const struct library *l)
{
    return l->report_text(month, text, sizeof text).octets;
}

/* Both libraries count the frame, and spell the report, the same. */
static void reports_agree(void)
{
    static uint8_t first[DSSS_TEXT_MAX];
    dsss_counted one = libraries[DSSS].report_add(month, kind, chips, chips_len);
    dsss_counted two = libraries[PLAIN].report_add(month, kind, chips, chips_len);

    if (memcmp(&one, &two, sizeof one) != 0 || one.number != 0 || one.report.airtime == month.airtime)
        fail("what is counted differs");
    uint64_t len = text_task(&libraries[DSSS]);
    memcpy(first, text, sizeof first);
    if (len == 0 || text_task(&libraries[PLAIN]) != len || memcmp(first, text, sizeof first) != 0)
        fail("the texts differ");
}

static void report_line(const char *name, task_fn task)
{
    double ns[BOTH];

    measure(task, ns);
    printf("%-36s  %12.0f  %12.0f  %6.2f\n", name, ns[DSSS], ns[PLAIN], ns[DSSS] / ns[PLAIN]);
    fflush(stdout);
}

/* What it costs to count a frame is its read, with room for the longest payload, and little more. */
static void reports(void)
{
    printf("\nreports; a frame is long, at 11 Mbit/s, of %d octets\n", OCTETS);
    printf("%-36s  %12s  %12s  %6s\n", "call", "dsss ns", "plain ns", "ratio");
    set_up(DSSS_LONG, DSSS_RATE_11, OCTETS);
    reports_agree();
    report_line("add of an empty recording", add_empty_task);
    report_line("add of a frame", add_task);
    report_line("read hard of it, room for 4,095", read_with_room_task);
    report_line("text", text_task);
}

/* ---- Stores ---------------------------------------------------------------------------------- */

static uint64_t store_read_task(const struct library *l)
{
    return l->store_read(store, store_len).number;
}

static uint64_t store_change_task(const struct library *l)
{
    return l->store_change(store, store_len, DSSS_TAG_PHASE, 1);
}

static uint64_t store_write_task(const struct library *l)
{
    return l->store_write(DSSS_SHORT, DSSS_RATE_11, 2, store, store_len);
}

/* Both libraries answer the same, as they must, leave the same store, and read the same settings from it. */
static void stores_agree(size_t which, task_fn task)
{
    static uint8_t first[DSSS_STORE_MAX];
    dsss_settings settings[BOTH];

    for (size_t l = 0; l < BOTH; l++) {
        store_len = lay_store(which, store);
        if (task(&libraries[l]) != stores[which].number)
            fail("a store is not refused, or is, as expected");
        if (l == 0)
            memcpy(first, store, store_len);
        if (memcmp(first, store, store_len) != 0)
            fail("the stores differ");
        settings[l] = libraries[l].store_read(store, store_len);
    }
    if (memcmp(&settings[DSSS], &settings[PLAIN], sizeof settings[DSSS]) != 0)
        fail("the settings differ");
}

/* The table of contents is walked, bodies are not: the longest store costs little more than the shortest. */
static void kept(void)
{
    static const task_fn of[STORES] = {store_read_task, store_read_task, store_read_task, store_change_task,
                                       store_write_task};

    printf("\nstores: reads of one as it is written, of the longest that is read, of the largest, which is refused\n");
    printf("%-10s  %6s  %12s  %12s  %6s\n", "call", "octets", "dsss ns", "plain ns", "ratio");
    for (size_t which = 0; which < STORES; which++) {
        double ns[BOTH];
        stores_agree(which, of[which]);
        measure(of[which], ns);
        printf("%-10s  %6zu  %12.1f  %12.1f  %6.2f\n", stores[which].name, store_len, ns[DSSS], ns[PLAIN],
               ns[DSSS] / ns[PLAIN]);
        fflush(stdout);
    }
}

/* ---- Parts of reading, to see where a reader's time goes ------------------------------------- */

static void part_line(const char *name, task_fn task, size_t many)
{
    double ns[BOTH];

    measure(task, ns);
    printf("%-26s  %10.2f  %10.2f  %6.2f\n", name, ns[DSSS] / (double)many, ns[PLAIN] / (double)many,
           ns[DSSS] / ns[PLAIN]);
    fflush(stdout);
}

enum { BLOCK = 64, CCK = 8, RECORDERS = 3 }; /* symbols, chips */

static uint64_t recorder;

/* The word of the last symbol of the block that starts at a payload's symbol. */
static uint64_t eleven_at(const struct library *l, size_t symbol)
{
    size_t at = DSSS_FRONT_LONG + CCK * symbol, len = CCK * BLOCK;

    return l->eleven(recorder, chips + at, len, bytes + 2 * at, 2 * len, i_row + at, len, q_row + at, len);
}

static uint64_t eleven_task(const struct library *l)
{
    uint64_t sum = 0;

    for (size_t s = 0; s + BLOCK <= OCTETS; s += BLOCK)
        sum += eleven_at(l, s);
    return sum;
}

/* Both choose the same words: the last one of the blocks that start at every symbol. */
static void elevens_agree(void)
{
    for (size_t s = 0; s + BLOCK <= OCTETS; s++)
        if (eleven_at(&libraries[DSSS], s) != eleven_at(&libraries[PLAIN], s))
            fail("the words chosen differ");
}

static void choices_at_11(void)
{
    static const char *const names[RECORDERS] = {"choice at 11 Mbit/s, hard", "choice at 11 Mbit/s, soft",
                                                 "choice at 11 Mbit/s, bytes"};

    set_up(DSSS_LONG, DSSS_RATE_11, OCTETS);
    for (recorder = 0; recorder < RECORDERS; recorder++) {
        elevens_agree();
        part_line(names[recorder], eleven_task, OCTETS / BLOCK * BLOCK);
    }
}

enum { ROW = 4096 }; /* samples of a part's row: the first of the payload */

static const float *const i_part = i_row + DSSS_FRONT_LONG, *const q_part = q_row + DSSS_FRONT_LONG;
static int32_t counts[ROW];
static size_t symbol_chips;

static uint64_t count_task(const struct library *l)
{
    l->count(i_part, ROW, counts, ROW);
    return (uint64_t)counts[ROW - 1];
}

static uint64_t decide_task(const struct library *l)
{
    uint64_t sum = 0;

    for (size_t k = 0; k + symbol_chips <= ROW; k += symbol_chips)
        sum += l->decide(rate, i_part + k, symbol_chips, q_part + k, symbol_chips);
    return sum;
}

/* Both libraries count each sample the same, and the sums of what is decided agree. */
static void parts_agree(void)
{
    static int32_t first[ROW];

    count_task(&libraries[DSSS]);
    memcpy(first, counts, sizeof first);
    memset(counts, 0, sizeof counts);
    count_task(&libraries[PLAIN]);
    if (memcmp(first, counts, sizeof first) != 0)
        fail("the counts differ");
    if (decide_task(&libraries[DSSS]) != decide_task(&libraries[PLAIN]))
        fail("the sums of the words chosen differ");
}

static void parts(void)
{
    static const struct {
        const char *name;
        uint64_t code;
        size_t chips;
    } choices[] = {{"choice of a Barker symbol", DSSS_RATE_1, 11},
                   {"choice at 5.5 Mbit/s", DSSS_RATE_5_5, 8}};

    printf("\nparts of reading: a choice is that of one soft symbol, its samples counted first, by dsss looked at\n"
           "too, or at 11 Mbit/s of a symbol in blocks of %d, looked at by both\n",
           BLOCK);
    printf("%-26s  %10s  %10s  %6s\n", "part", "dsss ns", "plain ns", "ratio");
    for (size_t c = 0; c < sizeof choices / sizeof choices[0]; c++) {
        set_up(DSSS_LONG, choices[c].code, OCTETS);
        symbol_chips = choices[c].chips;
        parts_agree();
        if (c == 0)
            part_line("count of a sample", count_task, ROW);
        part_line(choices[c].name, decide_task, ROW / symbol_chips);
    }
    choices_at_11();
}

int main(int argc, char **argv)
{
    const char *set = getenv("DSSS_EMULATED");

    emulated = set && strcmp(set, "") != 0 && strcmp(set, "0") != 0;
    if (argc > 2 || (argc == 2 && (limit = atof(argv[1]) / 1000) <= 0))
        fail("usage: bench [milliseconds]");
    for (size_t k = 0; k < sizeof payload; k++)
        payload[k] = (uint8_t)noise();
    head();
    whole_calls();
    fronts();
    finds();
    whys();
    guides();
    comparisons();
    reports();
    kept();
    parts();
    return 0;
}
