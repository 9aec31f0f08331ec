/* dsss.h: frames of IEEE Std 802.11b-1999, from payload octets to chips and back.
 *
 * The library writes a frame as chips, and reads a hard, soft or byte recording of chips back to the
 * payload; of a hard one it tells from the front alone what is coming, finds the first offset at which
 * a front can be read, and says why a read is refused. It reads a hard one as its chips arrive, in batches,
 * and shows the payload as far as it has come. It reads a hard one as the oldest guides do, those of 1997. It
 * compares two hard ones, chips and payloads. Of many hard ones it makes a report, and spells it out as text.
 * It lays out a table's radio settings as a store of a few octets, reads them and changes one.
 * What it answers is fixed by docs/RULES.md and proved for every input, with one exception, which stands at
 * dsss_receiver; docs/PROMISES.md says where. No proof covers this header: it is written by hand and held to
 * the source by a test.
 *
 * CONVENTIONS, the same for every call
 *
 * Rows      A row is a pointer and a length in elements: chips and chips_len. A row of length 0
 *           may be NULL. Any other row is that many elements of memory that may be used, and floats
 *           and wider elements stand where C puts them, floats at a multiple of 4 octets. A NULL with
 *           a length, or a length above the memory behind it, is the caller's fault; no promise
 *           covers it. A list is a row whose elements are rows, and all of this holds for each.
 * Overlap   A const row is only read. A row without const is lent for writing and overlaps no
 *           other row of the call. Const rows may overlap each other; a list may name a row twice.
 * Receivers A receiver is a pointer to one dsss_receiver, lent for writing. It is not NULL, it is aligned as
 *           a uint64_t is, and it overlaps no row of the call. That is the caller's duty; no promise covers
 *           a call without it.
 * Memory    Nothing is allocated and nothing is kept: no state, no lock, no file. A report is the
 *           caller's, handed in and back by value; a store is octets in the caller's row; a receiver is the
 *           caller's, lent and changed in place. Calls at the same time are safe if no row and no receiver
 *           that one of them writes is used by another.
 * Numbers   Numbers are 64 bits wide and compared whole: a kind of 2^32 is refused, not cut to 0. A
 *           yes or no is 0 for no and any other number for yes, 256 and 2^40 too.
 * Answers   An answer is a record by value, or the number alone. The number is 0 if the call did its
 *           work, or that of the refusal. Where several refusals hold, the first in the call's order is
 *           given.
 *           NUMBER 0 OF A READ IS NOT "THE OCTETS ARE THOSE SENT". It says that a frame with a good
 *           header was there, whole, and what its chips were decided as. Only the header has a check
 *           here; the payload's own check sequence is the MAC's, stands in the payload's last octets
 *           and is not looked at. One spoiled symbol can give number 0 and other octets: check them.
 *           Of a read of the front alone it says no more than that the header is good and that the
 *           recording is as long as the frame. Of a find it says no more than that a read accepts the
 *           front at the offset told: not that the frame starts there, nor that it is whole. Of a
 *           recording added to a report it says no more than that it was counted: its read may have
 *           been refused, and is counted as refused then. Of an open or a feed it says no more than that
 *           the call was taken: only the close says whether the read is refused. dsss_why answers the
 *           number of a read, so that a refusal is what it was asked for, and no fault of the call.
 *           dsss_compare has no number of its own: its two records have theirs, and the chips are compared
 *           whatever these are.
 * Reads     Four calls read a whole recording to its payload. dsss_read_hard, dsss_read_soft and
 *           dsss_read_bytes are one for each recorder. dsss_read_1997 reads hard recordings as the guides of
 *           1997 do, and refuses more of them, with 13 and 14. No other call reads so: what dsss_read_front,
 *           dsss_find, dsss_why, dsss_compare, the calls of a receiver and those of the report say of a read,
 *           they say of dsss_read_hard. A receiver reads a hard recording that comes in batches: dsss_open,
 *           dsss_feed for each batch, dsss_close.
 * Fills     What a lent row held before does not matter. Each call writes every element of it,
 *           refused or not: a chip buffer is 4s but for the frame, an octet buffer is 0s but for
 *           the payload, the text or the store, a row of numbers is 0s but for its list. A refused
 *           call leaves nothing else, so nothing old can be shown. THREE CALLS ARE OTHERWISE:
 *           dsss_store_change reads the store that it is lent, changes one octet of it at most, and,
 *           refused, leaves every octet as it was. dsss_feed adds to the octets that the receiver's calls
 *           left in the buffer. dsss_feed and dsss_close, refused with 20, leave every octet as it was.
 * Places    The place of a refusal and an offset are chip indexes from the recording's start, which is 0;
 *           so is the index in a list of chips. In a list of octets it is an index into the payload. The
 *           places of a row of numbers are its elements. The recording of a receiver starts with the first
 *           chip that is fed after the open.
 */
#ifndef DSSS_H
#define DSSS_H

#include <stddef.h>
#include <stdint.h>

#ifdef __cplusplus
extern "C" {
#endif

/* The version, in three parts. MAJOR rises when a record or a call changes, MINOR when something is
 * added, PATCH when neither. A call whose record or parameters change gets a new symbol, which a
 * macro here stands for: an object built with an older header then does not link, and is built anew. */
#define DSSS_VERSION_MAJOR 3
#define DSSS_VERSION_MINOR 7
#define DSSS_VERSION_PATCH 0
#define DSSS_VERSION (10000 * DSSS_VERSION_MAJOR + 100 * DSSS_VERSION_MINOR + DSSS_VERSION_PATCH)

/* The symbols of the calls. C and C++ write the plain names; what goes by symbols, as another language
 * or a debugger does, finds these. dsss_open, dsss_feed, dsss_close, dsss_read_1997, dsss_read_front,
 * dsss_find, dsss_why, dsss_compare, the three calls of the report and the three of the store are their own
 * symbols. When the type dsss_record changes, each call that answers it gets a new symbol: the four reads,
 * dsss_read_1997 too, dsss_close, and dsss_compare, which answers two of it. When the size of dsss_receiver
 * changes, its three calls get new symbols. */
#define dsss_write dsss_write_2
#define dsss_read_hard dsss_read_hard_3
#define dsss_read_soft dsss_read_soft_3
#define dsss_read_bytes dsss_read_bytes_3

/* Chip octets. 0 to 3 are phases in quarter turns counter-clockwise; 5 to 255 are unusable. */
#define DSSS_CHIP_LOST 4 /* the mark for no chip; also what fills a chip buffer past the frame */

/* Leads are told in counts: so many are a full chip. */
#define DSSS_FULL_CHIP 1024

/* Kinds of preamble. */
#define DSSS_LONG 0
#define DSSS_SHORT 1 /* not at 1 Mbit/s */

/* Rate codes. */
#define DSSS_RATE_1 10    /*  1   Mbit/s, 88 chips an octet */
#define DSSS_RATE_2 20    /*  2   Mbit/s, 44 chips an octet */
#define DSSS_RATE_5_5 55  /*  5.5 Mbit/s, 16 chips an octet */
#define DSSS_RATE_11 110  /* 11   Mbit/s,  8 chips an octet */

/* Tags of the settings in a store. */
#define DSSS_TAG_KIND 1
#define DSSS_TAG_RATE 2
#define DSSS_TAG_PHASE 3

/* Sizes. A frame is its front (SYNC, SFD and header) and then the payload's chips. */
#define DSSS_FRONT_LONG 2112
#define DSSS_FRONT_SHORT 1056
#define DSSS_FRONT_SYMBOLS(kind) ((kind) == DSSS_LONG ? 192 : 96) /* of 11 chips each */
#define DSSS_PAYLOAD_MAX 4095
#define DSSS_CHIPS_MAX 362472 /* the longest frame: long, 1 Mbit/s, 4,095 octets */
#define DSSS_RECEIVER 232 /* octets of a dsss_receiver */
#define DSSS_OFFSETS_MAX 4096 /* offsets that one find tries, at most */
#define DSSS_RECORDINGS_MAX 1000 /* recordings that one report counts, at most */
#define DSSS_TEXT_MAX 980 /* octets of the longest text that any report has */
#define DSSS_STORE_OCTETS 17 /* THE LENGTH OF A STORE THAT WAS WRITTEN, whatever the length of its buffer */
#define DSSS_STORE_MAX 4146 /* octets of the longest store that can be laid out, 16 entries with bodies of 255.
                               A buffer of one octet more holds any store whole, and shows a longer file as
                               longer. Settings are one octet each, so that a read accepts 3,384 at most */

/* Places of a row of numbers for so many entries of a list of differences. A list of chips has at most as
 * many entries as the shorter recording has chips, a list of octets at most DSSS_PAYLOAD_MAX. */
#define DSSS_LIST_PLACES(entries) ((size_t)3 * (size_t)(entries))

/* The chips of an octet at a rate, and of a frame of n octets: the room that a write needs. Both are
 * constants where their arguments are; for a kind or rate that is none they mean nothing. A read of
 * any frame has room in DSSS_PAYLOAD_MAX octets, or in the n that dsss_read_front tells of it: refusal
 * 17 cannot come then. */
#define DSSS_OCTET_CHIPS(rate) \
    ((rate) == DSSS_RATE_1 ? 88 : (rate) == DSSS_RATE_2 ? 44 : (rate) == DSSS_RATE_5_5 ? 16 : 8)
#define DSSS_FRAME_CHIPS(kind, rate, n)                             \
    ((size_t)((kind) == DSSS_LONG ? DSSS_FRONT_LONG : DSSS_FRONT_SHORT) \
     + (size_t)DSSS_OCTET_CHIPS(rate) * (size_t)(n))

/* Refusals. Writing looks for 1 to 6 in this order. Reading looks for 1, 7, 8, then 9 and 10 over the
 * front, 11 to 17, then 9 and 10 over the payload; each 9 through its whole part before 10.
 * dsss_read_1997 has this order too, without 1 and 7, and gives 13 and 14 for more: for every SIGNAL
 * and every SERVICE that a guide of 1997 does not know. All other calls give them as dsss_read_hard
 * does. A feed looks for 20 alone, a close for 20 and then as dsss_read_hard does, over all chips fed;
 * an open is never refused. A read of the front looks for 1, 8, then 9 and 10 over the front, 11 to 16,
 * and for nothing more. A find looks for 1 and 18, then for a front, and answers 19 if there is none.
 * dsss_why looks as a read does, and dsss_compare as two reads do, each for itself. A report's calls
 * answer 31, of a list 7 before it, and its text 17; what the recordings are refused with is counted,
 * not answered. A read of a store looks for 21 to 28 in this order, each in the whole store before the
 * next; a change for these, then for 30, then for 28 in the settings as they would be; a write of one
 * for 28, then 29. */
#define DSSS_REFUSED_KIND 1        /* kind is neither 0 (long) nor 1 (short) */
#define DSSS_REFUSED_RATE 2        /* rate code isn't one of the four */
#define DSSS_REFUSED_SHORT_RATE 3  /* rate code 10 with the short kind */
#define DSSS_REFUSED_PAYLOAD 4     /* payload is 0 octets or above 4,095 */
#define DSSS_REFUSED_PHASE 5       /* starting phase above 3 */
#define DSSS_REFUSED_CHIP_ROOM 6   /* chip buffer shorter than the frame */
#define DSSS_REFUSED_ROWS 7        /* I and Q rows differ in length; an odd number of signed bytes; a list
                                      without as many kinds as recordings */
#define DSSS_REFUSED_FRONT 8       /* recording shorter than the front */
#define DSSS_REFUSED_CHIP 9        /* an unusable chip; place: the first such chip of the part */
#define DSSS_REFUSED_GROWTH 10     /* a 1 Mbit/s symbol grown by 1 or 3; place: its first chip */
#define DSSS_REFUSED_SFD 11        /* unscrambled SFD differs */
#define DSSS_REFUSED_CRC 12        /* CRC differs */
#define DSSS_REFUSED_SIGNAL 13     /* SIGNAL not a rate of this kind; of dsss_read_1997, neither 10 nor 20 */
#define DSSS_REFUSED_SERVICE 14    /* SERVICE not 0 or 4, nor 128 or 132 at 11 Mbit/s; of dsss_read_1997, not 0 */
#define DSSS_REFUSED_LENGTH 15     /* LENGTH and bit 7 not those of 1 to 4,095 octets */
#define DSSS_REFUSED_CUT 16        /* recording ends inside the payload */
#define DSSS_REFUSED_OCTET_ROOM 17 /* octet buffer shorter than the payload, or than a report's text */
#define DSSS_REFUSED_OFFSETS 18    /* number of offsets to try is 0 or above 4,096 */
#define DSSS_REFUSED_NO_START 19   /* none of the offsets has a front that a read accepts */
#define DSSS_REFUSED_RECEIVER 20   /* receiver not open, or with numbers that no call leaves; octet buffer of
                                      another length than at its open */
#define DSSS_REFUSED_STORE_CUT 21  /* store shorter than 2 octets, or than its table of contents */
#define DSSS_REFUSED_ENTRIES 22    /* store has more than 16 entries */
#define DSSS_REFUSED_TAGS 23       /* store's tags do not rise strictly */
#define DSSS_REFUSED_LAYOUT 24     /* an offset, a length or the end of the store not as laid out */
#define DSSS_REFUSED_HIGH_TAG 25   /* store has a tag of 128 or more */
#define DSSS_REFUSED_NO_TAG 26     /* store lacks tag 1, 2 or 3 */
#define DSSS_REFUSED_BODY 27       /* body of tag 1, 2 or 3 is not one octet */
#define DSSS_REFUSED_SETTINGS 28   /* kind, rate code and starting phase not what 1, 2, 3 and 5 allow */
#define DSSS_REFUSED_STORE_ROOM 29 /* buffer for a store shorter than 17 octets */
#define DSSS_REFUSED_CHANGE_TAG 30 /* tag of a change is none of 1, 2 and 3 */
#define DSSS_REFUSED_REPORT 31     /* report has seen 1,000, or holds more than 1,000 come to; list above 1,000 */

/* The answer of a write. */
typedef struct {
    uint64_t number; /* 0, or the refusal */
    uint64_t chips;  /* chips written, the frame's; 0 if refused */
} dsss_written;

/* The answer of a read.
 * The lead says how clearly a symbol was won. A symbol is decided as the allowed word that scores most;
 * its lead is that score less the best score among the other allowed words. 0 is a tie: another word
 * scored as much, and the one with the smallest number was taken. Full chips as they were sent have
 * leads of 11 full chips in the front and at 1 and 2 Mbit/s, of 8 at 5.5 and of 4 at 11 Mbit/s. Of hard
 * chips and bytes a lead above 0 says that no other allowed word scores as much; of soft samples, which
 * are rounded, a lead above 11 counts says it for their exact values, and above 8 for a payload symbol
 * at 5.5 and 11 Mbit/s, but not for the front's. A large lead is no check of the octets either: a
 * symbol that is spoiled whole may be won clearly.
 * Symbols are counted from 0 at the frame's first; payload symbol k is DSSS_FRONT_SYMBOLS(kind) + k. */
typedef struct {
    uint64_t number; /* 0, or the refusal */
    uint64_t place;  /* of refusals 9 and 10; else 0 */
    uint64_t rate;   /* rate code; 0 if refused */
    uint64_t length; /* LENGTH in microseconds; if refused, 0 before 13 in the reading order */
    uint64_t n;      /* payload octets; 0 if refused */
    uint64_t used;   /* chips of the frame, front and payload; 0 if refused */
    uint64_t clock;  /* the clock bit, SERVICE bit 2, as 0 or 1; 0 if refused, also behind a good header */
    uint64_t lead;   /* the smallest lead in the frame, front included, in counts; 0 if refused */
    uint64_t symbol; /* the first symbol that has it, front included; 0 if refused */
} dsss_record;

/* The answer of a read of the front: what is coming. The clock bit stands before n, not behind used as
 * in dsss_record; no lead is told. */
typedef struct {
    uint64_t number; /* 0, or the refusal */
    uint64_t place;  /* of refusals 9 and 10; else 0 */
    uint64_t rate;   /* rate code; 0 if refused */
    uint64_t length; /* LENGTH in microseconds; if refused, 0 before 13 in the reading order */
    uint64_t clock;  /* the clock bit, SERVICE bit 2, as 0 or 1; 0 if refused, also behind a good header */
    uint64_t n;      /* payload octets; 0 if refused */
    uint64_t used;   /* chips of the whole frame, front and payload; 0 if refused */
    uint64_t at;     /* where the payload's chips begin in the recording, the front's chips; 0 if refused */
    uint64_t count;  /* the payload's chips, used - at; 0 if refused */
} dsss_coming;

/* The answer of a find: where a front can be read, and what it tells. There is no place, and a refusal
 * tells no LENGTH. */
typedef struct {
    uint64_t number; /* 0, or the refusal */
    uint64_t offset; /* the smallest whose front a read accepts, SELDOM THE FRAME'S FIRST CHIP; 0 if refused */
    uint64_t rate;   /* rate code; 0 if refused */
    uint64_t length; /* LENGTH in microseconds; 0 if refused */
    uint64_t clock;  /* the clock bit, SERVICE bit 2, as 0 or 1; 0 if refused */
    uint64_t n;      /* payload octets; 0 if refused */
} dsss_found;

/* The answer of dsss_why: what a read is refused with, and the two numbers that say why:
 *   number  expected                                  found
 *        0  0                                         0
 *        1  0                                         the kind handed in
 *        8  the chips of the front                    chips present, of the whole recording
 *        9  0                                         the chip octet at the place, 5 to 255
 *       10  0                                         growth of the symbol at the place, 1 or 3
 *       11  the SFD of the kind                       the SFD read
 *       12  the CRC worked out over the 32 bits read  the CRC read
 *       13  0                                         SIGNAL
 *       14  0                                         SERVICE without its allowed bits, never 0
 *       15  LENGTH as a writer makes it for the n     LENGTH read
 *           read; 0 if that is not 1 to 4,095
 *       16  the chips of the frame                    chips present, of the whole recording
 *       17  n                                         room
 * No other number comes. The two of 11 and of 12 are shown as four hexadecimal digits and an h, as F3A0h
 * (printf: "%04" PRIX64 "h"), all others as decimal numbers. The first bit sent is the lowest of an SFD and
 * the highest of a CRC. The n read is that of the rate, LENGTH and, at 11 Mbit/s, bit 7. The bits allowed in
 * SERVICE come to 132 at 11 Mbit/s and else to 4. An expected 0 is no number to show, but for 15, where it
 * says that the n read is no payload's. The two numbers differ in every refusal but two: 13 where SIGNAL is
 * 0, and 15 where LENGTH is 0. These show 0 and 0. */
typedef struct {
    uint64_t number;   /* 0, or the refusal of a read */
    uint64_t place;    /* of refusals 9 and 10; else 0 */
    uint64_t expected; /* as above */
    uint64_t found;    /* as above */
} dsss_reason;

/* The answer of dsss_compare. The records are those of two reads and have their own numbers: one recording may
 * be refused and the other accepted. */
typedef struct {
    dsss_record a, b; /* what dsss_read_hard answers of each recording */
    uint64_t chips;   /* chips that differ, all of them, also where their list does not fit its row */
    uint64_t octets;  /* payload octets that differ, likewise; 0 unless both recordings are accepted, so that
                         0 SAYS THAT NONE DIFFERS ONLY WHERE a.number AND b.number ARE 0 */
    uint64_t n_a;     /* octets of the first payload; 0 unless both recordings are accepted */
    uint64_t n_b;     /* octets of the second payload, likewise */
} dsss_compared;

/* A receiver: how far the read of a hard recording has come whose chips arrive in batches.
 *   whose      The caller owns it, in memory of any sort, and lends it to each call. The library keeps no
 *              pointer to it, nor to the buffer. Nothing has to be freed: a receiver that is no longer wanted
 *              is left as it is, open or not.
 *   contents   Private. Another version may have other numbers there: do not look at them, and do not keep
 *              them in a file. ALL ZEROS IS A RECEIVER THAT WAS NEVER OPENED, dsss_receiver receiver = {{0}}
 *              (in C++ dsss_receiver()). Before an open it may hold anything.
 *   moved      It may be moved and copied between calls, as any struct. A copy goes on from where it was
 *              made, with a copy of the buffer; the two then know nothing of each other. There may be any
 *              number of receivers at the same time.
 *   promised   What is fed in batches is read as if it were handed to dsss_read_hard whole. This holds if each
 *              feed and the close get the receiver and the buffer as the last call left them. Of the buffer
 *              only the length is compared with that at the open. Other memory of the same length is not
 *              noticed, nor are octets that were changed in between; what is read is then not promised, as
 *              a feed does not put octets there again that an earlier one put.
 *   exception  Any octets whatever may be handed in as a receiver. Each call ends, reads and writes nothing
 *              outside what it is lent, and answers. A feed and a close test the receiver's numbers: if these
 *              show that no call left them, the answer is 20, and nothing changes. BUT OCTETS THAT PASS THIS
 *              TEST THOUGH NO CALL LEFT THEM ARE NOT NOTICED. A feed then answers 0, and a close some record;
 *              what stands in record, buffer and receiver is not promised. The reason: no chips were fed that
 *              led to these octets, so that there is no recording whose read could be promised. */
typedef struct {
    uint64_t private_state[29];
} dsss_receiver;

/* The month's report: what was counted of the hard recordings that it has seen, each read under its own
 * kind and with room for DSSS_PAYLOAD_MAX octets, so that 17 does not come. They are read as dsss_read_hard
 * reads them, never as dsss_read_1997 does: a frame that only a guide of 1997 refuses counts as accepted.
 * It begins with all zeros, dsss_report report = {0} (in C++ dsss_report()), and is then kept by its calls
 * alone. Rows of rates go by rate code, rising: 10, 20, 55, 110. A frame is accepted if its read answers
 * 0. */
typedef struct {
    uint64_t seen;        /* recordings counted: all of frames and of refused; at most DSSS_RECORDINGS_MAX */
    uint64_t frames[4];   /* frames accepted, by rate */
    uint64_t octets[4];   /* their payload octets, by rate: the sum of n, not of LENGTH */
    uint64_t refused[18]; /* recordings refused, by number: 1 and 8 to 16 can come, the others stay 0 */
    uint64_t airtime;     /* microseconds of the frames accepted: 192 each, 96 if short, and LENGTH */
    uint64_t some;        /* 1 if a frame was accepted, else 0: lead 0 is a lead, and recording 0 one */
    uint64_t lead;        /* the smallest lead of the frames accepted, in counts; 0 if there is none */
    uint64_t recording;   /* the first that has it, counted from 0 over all seen; 0 if there is none */
} dsss_report;

/* The answer of a call that counts. */
typedef struct {
    uint64_t number;    /* 0, or the refusal: 31, of a list also 7 */
    dsss_report report; /* with what was counted */
} dsss_counted;

/* One recording of a list. */
typedef struct {
    const uint8_t *chips; /* chip octets */
    size_t chips_len;
} dsss_chips;

/* The answer of the call that makes the text. */
typedef struct {
    uint64_t number; /* 0, or 17 */
    uint64_t octets; /* octets of the text; 0 if refused */
} dsss_text;

/* The answer of a read of a store: a table's radio settings. Where number is 0, dsss_write refuses no payload
 * of 1 to 4,095 octets with 1, 2, 3 or 5 for them. */
typedef struct {
    uint64_t number; /* 0, or the refusal: 21 to 28 */
    uint64_t kind;   /* DSSS_LONG or DSSS_SHORT; 0 if refused */
    uint64_t rate;   /* rate code; 0 if refused */
    uint64_t phase;  /* starting phase, 0 to 3; 0 if refused */
} dsss_settings;

/* Writes one frame as chips.
 *   kind     DSSS_LONG or DSSS_SHORT                                      refusals 1, 3
 *   rate     one of the four rate codes                                   refusals 2, 3
 *   phase    0 to 3, the phase before the frame's first symbol            refusal 5
 *   clock    whether chip clock and carrier share an oscillator, 0 for no and any other number
 *            for yes: the clock bit, SERVICE bit 2                        no refusal
 *   payload  1 to 4,095 octets, the PSDU                                  refusal 4
 *   chips    lent, at least the frame's chips, DSSS_FRAME_CHIPS           refusal 6
 * Answer:  number 0 and the chips of the frame.
 * Refused: the number; chips 0.
 * Buffer:  chips[] is the frame and then 4s; refused, all 4s.
 * Proved:  crates/dsss, dsss_write_2, record Wrote: answer and chips. */
dsss_written dsss_write(uint64_t kind, uint64_t rate, uint64_t phase, uint64_t clock,
                        const uint8_t *payload, size_t payload_len, uint8_t *chips, size_t chips_len);

/* Reads the payload of one frame from a hard recording.
 *   kind     DSSS_LONG or DSSS_SHORT                                      refusal 1
 *   chips    the recording, chip octets; it starts at the frame's first chip, and what
 *            stands after the frame is not looked at                      refusals 8 to 16
 *   octets   lent, at least the payload's; DSSS_PAYLOAD_MAX always do     refusal 17
 * Answer:  number 0, the rate code, LENGTH, n, the chips used, the clock bit, and the smallest lead
 *          with its symbol; place 0.
 * Refused: the number; the place of a 9 or 10; LENGTH for 13 to 17 and for a 9 or 10 in the
 *          payload; all else 0, the clock bit, the lead and its symbol too.
 * Buffer:  octets[] is the payload and then 0s; refused, all 0s.
 * Damage:  a chip is wrong if it was recorded as another phase than the one sent, lost if as
 *          DSSS_CHIP_LOST. With room, a frame of dsss_write is read as it was written, but for the lead
 *          and its symbol, if in every symbol of 11 chips twice the wrong ones plus the lost ones is at
 *          most 10, and in every symbol of 8 chips at most 3; the lead is then at least DSSS_FULL_CHIP.
 *          Symbols of the front, and those of payloads at 1 and 2 Mbit/s, have 11 chips; at 5.5 and 11
 *          Mbit/s they have 8. A lost chip more in one symbol may give another payload with number 0.
 * Proved:  crates/dsss, dsss_read_hard_3, record ReadHard: answer and octets; of spoiled frames
 *          crates/promises_damage, SpoiledReadBack. */
dsss_record dsss_read_hard(uint64_t kind, const uint8_t *chips, size_t chips_len, uint8_t *octets,
                           size_t octets_len);

/* Reads the payload of one frame from a hard recording as the guides of 1997 do. They know only the long
 * preamble, the rates 10 and 20, and a SERVICE of 0. No kind is handed in: every recording is read as
 * DSSS_LONG.
 *   chips    the recording, as for dsss_read_hard with DSSS_LONG          refusals 8 to 16
 *   octets   lent, at least the payload's; DSSS_PAYLOAD_MAX always do     refusal 17
 * Answer:  number 0, the rate code, 10 or 20, LENGTH, n, the chips used, the clock bit, which is 0, and
 *          the smallest lead with its symbol; place 0.
 * Refused: the number; the place of a 9 or 10; LENGTH for 13 to 17 and for a 9 or 10 in the payload; all
 *          else 0, the lead and its symbol too. 13 is given if SIGNAL is neither 10 nor 20, so for 55 and
 *          110 too, whatever SERVICE is. 14 is given if SERVICE is not 0, so for 4, the clock bit, too.
 *          1 and 7 do not come. All else is refused as by dsss_read_hard with DSSS_LONG.
 * Buffer:  octets[] is the payload and then 0s; refused, all 0s.
 * Damage:  as of dsss_read_hard, for the frames that are read here.
 * Unless it refuses with 13 or 14, record and octets are those of dsss_read_hard with DSSS_LONG over the same
 * recording and with the same room; LENGTH is the same even then. A long frame of dsss_write, whole and with
 * room, is read if its rate is 10 or 20 and it has no clock bit. At 55 and 110 it is refused with 13, with
 * the clock bit or without; at 10 and 20 with the clock bit it is refused with 14.
 * TO REACH A GUIDE OF 1997, WRITE WITH DSSS_LONG, DSSS_RATE_1 OR DSSS_RATE_2, AND CLOCK 0.
 * The month's report does not read by this call, and dsss_why does not explain it: of a frame that is refused
 * here with 13 or 14, dsss_why may say that a read is not refused.
 * Proved:  crates/dsss, dsss_read_1997, record Read1997: answer and octets. */
dsss_record dsss_read_1997(const uint8_t *chips, size_t chips_len, uint8_t *octets, size_t octets_len);

/* Opens a receiver for one frame, whose chips are then fed in batches.
 *   receiver lent; what it held before does not matter. One that is open starts afresh, and what it was fed
 *            is forgotten                                                 no refusal
 *   kind     DSSS_LONG or DSSS_SHORT                                      refusal 1, at the close
 *   octets   lent, for the payload; DSSS_PAYLOAD_MAX always do. It may be another buffer than at the last
 *            open. Every feed and the close get one of the same length    refusal 17, at the close
 * Answer:  0, for a kind that is none too.
 * Refused: never.
 * Buffer:  octets[] is all 0s.
 * Proved:  crates/dsss, dsss_open, record ReceiverOpens: answer, receiver and octets. */
uint64_t dsss_open(dsss_receiver *receiver, uint64_t kind, uint8_t *octets, size_t octets_len);

/* Feeds a receiver with the next batch of chips.
 *   receiver lent, open: opened by dsss_open and not closed since         refusal 20
 *   octets   lent, the buffer as the last call left it, of the length that it had at the open
 *                                                                         refusal 20
 *   chips    the batch, chip octets. The first chip fed after the open is the frame's first, and each batch
 *            goes on where the last one ended, also within a symbol. A batch may have any number of chips; one
 *            of 0 chips changes nothing. What stands after the frame is not looked at
 *                                                                         refusals 8 to 16, at the close
 * Answer:  0, also when it is certain already that the read will be refused: the close says with what.
 * Refused: 20. Nothing has changed: a receiver that is open goes on with the next feed, and the batch that was
 *          refused can be fed again.
 * Buffer:  octets[] is every octet of the payload whose chips have all been fed, and then 0s. Before the front
 *          is whole it is all 0s. IT IS ALL 0s AT ONCE, and stays so, when a refusal is certain:
 *              for 9          an unusable chip of the frame is fed, also if its symbol is not whole yet
 *              for 10         a 1 Mbit/s symbol is whole and has grown by 1 or 3
 *              for 11 to 15   the header's last symbol is whole
 *              for 17         likewise: n is known then, and the buffer is shorter
 *          8 and 16 are certain only at the close, as more chips may come before it. They stand before 9 and
 *          10 in the order: which number the close answers may still depend on the chips that follow.
 *          Refused with 20, every octet is as it was.
 * OCTETS THAT STAND IN THE BUFFER BEFORE THE CLOSE MAY STILL BE TAKEN BACK, by a feed or by the close. How many
 * there are is not told. If kind and rate are known, it is the chips fed behind the front, divided by
 * DSSS_OCTET_CHIPS. A text has no octet 0, so that it goes up to the first 0.
 * Proved:  crates/dsss, dsss_feed, record ReceiverFeeds: answer, receiver and octets; of all calls from the
 *          open on ReceivedYet, and ReceiverRefused of 20. */
uint64_t dsss_feed(dsss_receiver *receiver, uint8_t *octets, size_t octets_len, const uint8_t *chips,
                   size_t chips_len);

/* Closes a receiver, and answers what dsss_read_hard answers over all chips fed since the open, joined, under
 * the kind of the open and with a buffer of this length.
 *   receiver lent, open, as for dsss_feed                                 refusal 20
 *   octets   lent, as for dsss_feed                                       refusals 17, 20
 * Answer:  number 0, the rate code, LENGTH, n, the chips used, the clock bit, and the smallest lead with its
 *          symbol; place 0.
 * Refused: 20, and all else 0. Nothing has changed: a receiver that is open stays open. Else the refusals of
 *          dsss_read_hard in its order, with place and LENGTH as there: 1 for a kind that is none, 8 if no
 *          chip was fed. A buffer shorter than n is 16 if the chips end within the payload, else 17. Places
 *          are counted from the first chip fed, not from the batch.
 * Buffer:  octets[] is the payload and then 0s; refused, all 0s. REFUSED WITH 20, EVERY OCTET IS AS IT WAS.
 * After any answer but 20 the receiver is closed. Until it is opened again, feeds and closes are refused with
 * 20 and leave the payload in the buffer.
 * Damage:  as of dsss_read_hard.
 * Proved:  crates/dsss, dsss_close, record ReceiverCloses: answer, receiver and octets; of all calls from the
 *          open on ReceivedAll, and ReceiverRefused of 20. */
dsss_record dsss_close(dsss_receiver *receiver, uint8_t *octets, size_t octets_len);

/* Reads the payload of one frame from a soft recording, a full chip being 1.0.
 *   kind     DSSS_LONG or DSSS_SHORT                                      refusal 1
 *   i, q     the recording, two rows of one length; it starts at the frame's first chip, and what
 *            stands after the frame is not looked at. A chip is unusable if its I or Q is a NaN,
 *            an infinity or above 8 in magnitude                          refusals 7 to 16
 *   octets   lent, at least the payload's; DSSS_PAYLOAD_MAX always do     refusal 17
 * Samples are rounded to the nearest 1/1024, halves to even, in the default rounding mode.
 * Answer:  number 0, the rate code, LENGTH, n, the chips used, the clock bit, and the smallest lead
 *          with its symbol; place 0.
 * Refused: the number; the place of a 9 or 10; LENGTH for 13 to 17 and for a 9 or 10 in the
 *          payload; all else 0, the clock bit, the lead and its symbol too.
 * Buffer:  octets[] is the payload and then 0s; refused, all 0s.
 * Proved:  crates/dsss, dsss_read_soft_3, record ReadSoft: answer and octets. */
dsss_record dsss_read_soft(uint64_t kind, const float *i, size_t i_len, const float *q,
                           size_t q_len, uint8_t *octets, size_t octets_len);

/* Reads the payload of one frame from a recording of signed bytes, a full chip being 64.
 *   kind     DSSS_LONG or DSSS_SHORT                                      refusal 1
 *   bytes    the recording, I and Q in turn: bytes[2k] is I of chip k, bytes[2k + 1] its Q. It
 *            starts at the frame's first chip, and what stands after the frame is not looked at.
 *            An odd number of bytes is refused; no chip is unusable: refusal 9 does not come
 *                                                                         refusals 7, 8, 10 to 16
 *   octets   lent, at least the payload's; DSSS_PAYLOAD_MAX always do     refusal 17
 * Each byte is taken as it is, in 64ths of a full chip: nothing is rounded, and -128 is not clamped.
 * Answer:  number 0, the rate code, LENGTH, n, the chips used, the clock bit, and the smallest lead
 *          with its symbol; place 0.
 * Refused: the number; the place of a 10, in chips; LENGTH for 13 to 17 and for a 10 in the
 *          payload; all else 0, the clock bit, the lead and its symbol too.
 * Buffer:  octets[] is the payload and then 0s; refused, all 0s.
 * Proved:  crates/dsss, dsss_read_bytes_3, record ReadBytes: answer and octets. */
dsss_record dsss_read_bytes(uint64_t kind, const int8_t *bytes, size_t bytes_len, uint8_t *octets,
                            size_t octets_len);

/* Tells from the front of a hard recording what is coming: how many octets, at which rate, and which
 * chips of the recording are the payload's. The answer hangs on no payload chip, which is proved; none
 * is looked at, and the time does not grow with n, which is tested and measured.
 *   kind     DSSS_LONG or DSSS_SHORT                                      refusal 1
 *   chips    the recording, chip octets; it starts at the frame's first chip. Behind the front only
 *            its length counts: it holds the whole frame, or refusal 16   refusals 8 to 16
 * Answer:  number 0, the rate code, LENGTH, the clock bit, n, the chips used by the whole frame, and
 *          the part of the recording that holds the payload's chips, just those: chips + at, count
 *          chips; place 0.
 * Refused: number, place (of a 9 or 10) and LENGTH (for 13 to 16) are those of dsss_read_hard over the
 *          same recording; all else 0, at and count too: the part is empty.
 * Buffer:  none is lent. The part handed back is chips + at, count chips, never a copy; it is good as
 *          long as chips is. Look at count first: after a refusal of no chips, chips may be NULL.
 * Damage:  as of dsss_read_hard; the symbols of the front alone count.
 * NUMBER 0 SAYS NOTHING OF THE PAYLOAD'S CHIPS: a full read may still refuse with 9 or 10 there. With
 * room for n octets it never refuses with 17.
 * Proved:  crates/dsss, dsss_read_front, record ReadFront: answer. */
dsss_coming dsss_read_front(uint64_t kind, const uint8_t *chips, size_t chips_len);

/* Finds a front in a hard recording that begins anywhere: the smallest offset, below the number of
 * offsets to try, from which a read, as if the recording started there, meets none of refusals 8 to
 * 15, 9 and 10 over the front only.
 *   kind     DSSS_LONG or DSSS_SHORT                                      refusal 1
 *   chips    the recording, chip octets. Those before the offset may be anything, unusable too; from
 *            it on a whole front must be there, but none of the payload need be: a frame that is cut
 *            or unusable behind its front is found                        refusal 19
 *   offsets  how many to try, 1 to DSSS_OFFSETS_MAX: the offsets 0 to offsets - 1, whatever the
 *            recording's length; those past its end have no front         refusal 18
 * Answer:  number 0, the offset, and the rate code, LENGTH, clock bit and n that the front there tells.
 * Refused: the number; all else 0. An empty recording, or one shorter than a front, is 19, never 8; 1
 *          and then 18 come first.
 * Buffer:  none is lent.
 * Damage:  a front of dsss_write that is spoiled as dsss_read_hard has it is found where it starts, or before.
 * THE OFFSET FOUND IS SELDOM THE FRAME'S FIRST CHIP, AND A READ FROM IT MAY GIVE NUMBER 0 AND OTHER
 * OCTETS. Barker symbols can be read beside their grid too, at a lead of one chip: the front of a clean
 * frame may be accepted from 10, 8, 6, 4 or 2 chips before its first chip already, and as far behind
 * it. So after ten or more lost chips it is found exactly 10 chips early, after other chips mostly 2 to
 * 10; the cleaner the recording, the surer. Where its first chips are unusable or were not recorded, it
 * is found 2 to 10 chips late. What the front tells is the frame's all the same. But a full read from
 * there gives number 0 and, as a rule, other octets at 5.5 and 11 Mbit/s, and those sent at 1 and 2
 * Mbit/s only while no chip is spoiled. Which chip is the frame's first, this call does not tell.
 * Proved:  crates/dsss, dsss_find, record Finds: answer. */
dsss_found dsss_find(uint64_t kind, const uint8_t *chips, size_t chips_len, uint64_t offsets);

/* Says why a read of a hard recording is refused, with room for so many octets: the number and the place
 * that dsss_read_hard answers over a buffer of that length, and what was expected and what was found.
 *   kind     DSSS_LONG or DSSS_SHORT                                      refusal 1
 *   chips    the recording as for dsss_read_hard; what stands after the frame is not looked at
 *                                                                         refusals 8 to 16
 *   room     octets of the buffer that a read would have: a number, no buffer is lent. It may be any
 *            number; with DSSS_PAYLOAD_MAX or more 17 does not come       refusal 17
 * Answer:  all four numbers 0: a read is not refused.
 * Refused: number and place of the read, and the two numbers of dsss_reason.
 * Buffer:  none is lent. The payload's octets are not worked out: its chips are looked at for 9, and at
 *          1 Mbit/s for 10.
 * Proved:  crates/dsss, dsss_why, record Explains: answer. */
dsss_reason dsss_why(uint64_t kind, const uint8_t *chips, size_t chips_len, uint64_t room);

/* Compares two hard recordings of one kind, as of two receivers over one table: which chips differ, and, where
 * both are accepted, which octets of their payloads. Each list goes to a row of numbers of its own, rising by
 * index, three places an entry: the index, what the first recording or payload has there, what the second has.
 *   kind       DSSS_LONG or DSSS_SHORT, for both                          refusal 1, in both records
 *   a          the first recording, as for dsss_read_hard                 refusals 8 to 16, in its record
 *   b          the second recording, likewise; the two may be of different lengths
 *                                                                         refusals 8 to 16, in its record
 *   chip_row   lent, for the chips that differ; DSSS_LIST_PLACES of the shorter recording's chips are always
 *              enough, and it may be empty if only the number is wanted   no refusal
 *   octet_row  lent, for the octets that differ; DSSS_LIST_PLACES(DSSS_PAYLOAD_MAX) places are always enough,
 *              and it may be empty likewise                               no refusal
 *   octets_a   lent, for the first payload; DSSS_PAYLOAD_MAX always do    refusal 17, in its record
 *   octets_b   lent, for the second payload, likewise                     refusal 17, in its record
 * Answer:  both records as dsss_read_hard answers them; how many chips differ, as far as the shorter recording
 *          goes: whole recordings, not frames, so that, if a is accepted, an index of a.used or more is behind
 *          its frame, and every octet counts, 5 to 255 too; how many octets differ, as far as the shorter
 *          payload goes, and both payloads' octets. Of payloads of different lengths the rest of the longer
 *          one is not listed: n_a and n_b differ then. Receivers need not share a phase: where all of one's
 *          phases are turned by the same quarters, every chip that is not lost at both differs, and no octet
 *          does.
 * Refused: a recording that is refused has its number in its own record; octets, n_a and n_b are then 0, and
 *          the chips are compared all the same. The call itself is never refused.
 * Buffer:  chip_row[] is the list and then 0s. A LIST THAT DOES NOT FIT LEAVES ITS ROW ALL 0s: no part of the
 *          list stands there. The other list is as it would be anyway. The number of entries is told in full:
 *          DSSS_LIST_PLACES(chips) > chip_row_len says that the list did not fit, and a second call with so
 *          many places has it. octet_row[] likewise, with octets. octets_a[] and octets_b[] are as
 *          dsss_read_hard leaves them: a recording that is refused has all 0s in its own, and the other keeps
 *          its payload, of a.n or b.n octets.
 * Proved:  crates/dsss, dsss_compare, record Compares: answer, chips, octets, first and second. */
dsss_compared dsss_compare(uint64_t kind, const uint8_t *a, size_t a_len, const uint8_t *b, size_t b_len,
                           uint64_t *chip_row, size_t chip_row_len, uint64_t *octet_row,
                           size_t octet_row_len, uint8_t *octets_a, size_t octets_a_len,
                           uint8_t *octets_b, size_t octets_b_len);

/* Counts one hard recording more into a report.
 *   report   the report so far, all zeros at first                        refusal 31
 *   kind     as for dsss_read_hard; one that is none is counted under 1   no refusal
 *   chips    the recording as for dsss_read_hard, empty too. It is read as by that call, not as by
 *            dsss_read_1997; what its read is refused with is counted, not answered
 *                                                                         no refusal
 * Answer:  number 0 and the report with the recording, accepted or refused. A frame accepted counts in
 *          frames, octets, airtime and, if its smallest lead is the first or below the one kept, in some,
 *          lead and recording; a recording refused counts under its number. Both count in seen.
 * Refused: 31 and the report as it stood, to the last number: the recording is not counted. The report
 *          has seen DSSS_RECORDINGS_MAX or more, or it cannot be one that these calls kept: an entry of
 *          frames or of refused is above 1,000, one of octets above 4,095,000, or airtime is above
 *          32,952,000. Below these limits nothing wraps round, whatever the numbers. some is a yes or no,
 *          and lead and recording may be any: they are not refused.
 * Buffer:  none is lent.
 * Damage:  a frame that dsss_read_hard reads as it was written is counted as that frame.
 * Keep the report of every answer, refused or not: report = dsss_report_add(report, ..).report.
 * Proved:  crates/dsss, dsss_report_add, record Adds: answer. */
dsss_counted dsss_report_add(dsss_report report, uint64_t kind, const uint8_t *chips, size_t chips_len);

/* Counts a whole list of hard recordings into a report that begins with all zeros.
 *   kinds    the kind of each recording                                   refusal 7
 *   list     the recordings: list[k] is read as kind kinds[k] says, as dsss_report_add does it; at
 *            most DSSS_RECORDINGS_MAX                                     refusals 7, 31
 * Answer:  number 0 and the report of all of them, the one that dsss_report_add comes to over the same
 *          recordings in their order.
 * Refused: 7 and a report of all zeros if kinds_len and list_len differ. 31 if there are more than
 *          DSSS_RECORDINGS_MAX recordings, and then the report of the first 1,000.
 * Buffer:  none is lent.
 * Proved:  crates/dsss, dsss_report_list, record Lists: answer. */
dsss_counted dsss_report_list(const uint64_t *kinds, size_t kinds_len, const dsss_chips *list,
                              size_t list_len);

/* Spells a report out as text, one fact a line, each line ended by a line feed (10):
 *     rate 10 frames 0 octets 0            for each of the four rate codes, rising
 *     refused 12 count 3                   for each number 1 to 17 whose count is not 0, rising
 *     airtime 0                            in microseconds
 *     lead 5 recording 0                   or "lead none" where some is 0
 * Numbers are decimal, with no zero before them.
 *   report   any report, also one that dsss_report_add refuses            no refusal
 *   text     lent, at least the text's octets; DSSS_TEXT_MAX always do    refusal 17
 * Answer:  number 0 and the octets of the text. THE TEXT IS NO C STRING: it has no 0 at its end where the
 *          buffer is just as long; write octets octets of it.
 * Refused: 17, and octets 0.
 * Buffer:  text[] is the text and then 0s; refused, all 0s.
 * Proved:  crates/dsss, dsss_report_text, record Spells: answer and octets. */
dsss_text dsss_report_text(dsss_report report, uint8_t *text, size_t text_len);

/* A store keeps the radio settings of a table, kind, rate code and starting phase, in octets that a newer
 * program can write more into and an older one still reads:
 *     octet 0        a version: a write makes it 1, a read and a change do not look at it
 *     octet 1        the number of entries, 0 to 16
 *     4 each entry   the table of contents: the tag, the offset of the entry's body from the store's first
 *                    octet (two octets, the low one first) and the body's length, 0 to 255
 *     the bodies     in the order of the table of contents, with no gaps, up to the store's end
 * Tags rise strictly. Tags 1, 2 and 3 are kind, rate code and starting phase, one octet each, and must be
 * there. Any other tag below 128, 0 too, is passed over with its body; one of 128 or more says that a reader
 * who does not know it must not go on.
 *
 * THE STORE'S LENGTH IS ITS OWN, NOT THE BUFFER'S. A store that dsss_store_write wrote has DSSS_STORE_OCTETS
 * octets, and the zeros behind them are no part of it: keep, read and change those octets alone. Read or
 * changed with the length of a longer buffer it is refused with 24. Of a store that comes from a file the
 * length is the file's: read the file whole, into DSSS_STORE_MAX + 1 octets, so that one that is longer than
 * any store is refused and not cut. Write it whole too, into a new file that then takes the old one's name:
 * octets of two stores, mixed, may be read as settings that neither has. */

/* Writes a store with these three settings: version 1 and the entries of tags 1, 2 and 3.
 *   kind     DSSS_LONG or DSSS_SHORT                                      refusal 28
 *   rate     one of the four rate codes, not 10 with the short kind       refusal 28
 *   phase    0 to 3, the starting phase                                   refusal 28
 *   store    lent, at least DSSS_STORE_OCTETS octets                      refusal 29
 * Answer:  0. THE STORE IS THE FIRST DSSS_STORE_OCTETS OCTETS, however long the buffer is.
 * Refused: the number: 28 where 1, 2, 3 or 5 holds of the three, else 29.
 * Buffer:  store[] is the store and then 0s, which are no part of it; refused, all 0s. A REFUSED WRITE WIPES
 *          THE ROW, AND WITH IT ANY SETTINGS THAT STOOD THERE. Try settings in a row of their own, or change a
 *          store that stands by dsss_store_change, which leaves it as it was if it refuses.
 * Proved:  crates/dsss, dsss_store_write, record StoreWrites: answer and octets. */
uint64_t dsss_store_write(uint64_t kind, uint64_t rate, uint64_t phase, uint8_t *store, size_t store_len);

/* Reads the three settings from a store, this program's or a newer one's.
 *   store    the store, all of it and nothing behind it: store_len is DSSS_STORE_OCTETS for one that
 *            dsss_store_write wrote, NOT THE LENGTH OF ITS BUFFER, which is refused with 24; of one that
 *            comes from a file it is the file's length                    refusals 21 to 28
 * Answer:  number 0, and kind, rate code and starting phase. The version and unknown tags are not told, nor
 *          are their bodies looked at.
 * Refused: the number; all else 0.
 * Buffer:  none is lent for writing.
 * Proved:  crates/dsss, dsss_store_read, record StoreReads: answer. */
dsss_settings dsss_store_read(const uint8_t *store, size_t store_len);

/* Changes one setting of a store where it stands. Unknown tags and the version stay as a newer program wrote
 * them.
 *   store    the store, all of it and nothing behind it, as for dsss_store_read: store_len is
 *            DSSS_STORE_OCTETS for one that dsss_store_write wrote, NOT THE LENGTH OF ITS BUFFER, and the
 *            file's length for one from a file. It is read and written    refusals 21 to 28
 *   tag      DSSS_TAG_KIND, DSSS_TAG_RATE or DSSS_TAG_PHASE               refusal 30
 *   value    the new value, also the one that stands there. The three settings must be allowed together
 *            after this one change: from long with rate code 10 the rate is changed first, then the kind,
 *            and to rate code 10 from short the kind first                refusal 28
 * Answer:  0.
 * Refused: the number: 21 to 28 as a read is, then 30, then 28 for the settings as they would be. So 28 may be
 *          the store's or the value's: dsss_store_read of the same store tells which.
 * Buffer:  store[] has the new value as the one octet of that tag's body; every other octet is as it was.
 *          REFUSED, EVERY OCTET IS AS IT WAS, unlike in all other calls: nothing is filled.
 * Proved:  crates/dsss, dsss_store_change, record StoreChanges: answer and octets. */
uint64_t dsss_store_change(uint8_t *store, size_t store_len, uint64_t tag, uint64_t value);

/* The sentence of an answer's number, to show to people. A number that is neither 0 nor a refusal
 * gets the last sentence.
 * NOT PROVED: plain C, held to the table of refusals by tests/header. */
static inline const char *dsss_sentence(uint64_t number)
{
    switch (number) {
    case 0:
        return "Not refused.";
    case DSSS_REFUSED_KIND:
        return "The kind is neither 0 (long) nor 1 (short).";
    case DSSS_REFUSED_RATE:
        return "The rate code is not one of the four: 10, 20, 55 or 110.";
    case DSSS_REFUSED_SHORT_RATE:
        return "Rate code 10 does not go with the short kind.";
    case DSSS_REFUSED_PAYLOAD:
        return "The payload is 0 octets or above 4,095.";
    case DSSS_REFUSED_PHASE:
        return "The starting phase is above 3.";
    case DSSS_REFUSED_CHIP_ROOM:
        return "The chip buffer is shorter than the frame.";
    case DSSS_REFUSED_ROWS:
        return "The I and Q rows differ in length, the number of signed bytes is odd, or a list has not as many "
               "kinds as recordings.";
    case DSSS_REFUSED_FRONT:
        return "The recording is shorter than the front of a frame.";
    case DSSS_REFUSED_CHIP:
        return "A chip is unusable.";
    case DSSS_REFUSED_GROWTH:
        return "A 1 Mbit/s symbol has grown by 1 or 3 quarter turns.";
    case DSSS_REFUSED_SFD:
        return "The unscrambled SFD differs from that of this kind.";
    case DSSS_REFUSED_CRC:
        return "The CRC of the header differs.";
    case DSSS_REFUSED_SIGNAL:
        return "SIGNAL is not a rate of this kind or, for a guide of 1997, neither 10 nor 20.";
    case DSSS_REFUSED_SERVICE:
        return "SERVICE is not 0 or 4, nor 128 or 132 at 11 Mbit/s, or, for a guide of 1997, not 0.";
    case DSSS_REFUSED_LENGTH:
        return "LENGTH is not one that a writer makes for 1 to 4,095 octets.";
    case DSSS_REFUSED_CUT:
        return "The recording ends inside the payload.";
    case DSSS_REFUSED_OCTET_ROOM:
        return "The octet buffer is shorter than the payload, or than the text of the report.";
    case DSSS_REFUSED_OFFSETS:
        return "The number of offsets to try is 0 or above 4,096.";
    case DSSS_REFUSED_NO_START:
        return "None of the offsets has a front that a read accepts.";
    case DSSS_REFUSED_RECEIVER:
        return "The receiver is not open, or the octet buffer has another length than when it was opened.";
    case DSSS_REFUSED_STORE_CUT:
        return "The store is shorter than 2 octets, or than its table of contents.";
    case DSSS_REFUSED_ENTRIES:
        return "The store has more than 16 entries.";
    case DSSS_REFUSED_TAGS:
        return "The tags of the store do not rise strictly.";
    case DSSS_REFUSED_LAYOUT:
        return "An offset, a length or the end of the store is not as laid out.";
    case DSSS_REFUSED_HIGH_TAG:
        return "The store has a tag of 128 or more, which only a newer program can read.";
    case DSSS_REFUSED_NO_TAG:
        return "The store lacks tag 1, 2 or 3: kind, rate code or starting phase.";
    case DSSS_REFUSED_BODY:
        return "The body of tag 1, 2 or 3 is not one octet.";
    case DSSS_REFUSED_SETTINGS:
        return "Kind, rate code and starting phase, together, are not what a frame allows.";
    case DSSS_REFUSED_STORE_ROOM:
        return "The octet buffer is shorter than the 17 octets of a store that is written.";
    case DSSS_REFUSED_CHANGE_TAG:
        return "The tag of a change is none of 1, 2 and 3.";
    case DSSS_REFUSED_REPORT:
        return "The report has seen 1,000 recordings or holds a number above what 1,000 come to, or the list has more "
               "than 1,000.";
    default:
        return "This number is no refusal of this library.";
    }
}

#ifdef __cplusplus
}
#endif

#endif
