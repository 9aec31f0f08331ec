/* month: the month's report of recordings that stand in files.
 *
 *   month FILE..
 *
 * Each file is one hard recording: its first octet is the kind, the others are the chips. They are read as
 * dsss_read_hard reads them, never as dsss_read_1997 does, and counted in the order given; the report's text
 * (docs/RULES.md, 6.20) goes to the standard output. Every word is the name of a file, "-" and "--help" too;
 * there are no options.
 *
 * Left out are a file that cannot be opened or read to its end, an empty one, and one of more than 65,536
 * octets. The standard error has a line for each, with the reason, and then one that says how many recordings
 * came after the thousandth, if any did: those are not counted. Control characters of ASCII in a name, as a
 * line feed, and the backslash stand there as \ooo, in octal.
 *
 * What a recording is refused with is counted, so the status is 0 all the same; it is 1, with a line on the
 * standard error, only if the text cannot be written; a signal, as of a pipe that nobody reads, ends it as any
 * program. A pipe that is named is waited for. */
#include "dsss.h"

#include <errno.h>
#include <inttypes.h>
#include <stdio.h>
#include <stdlib.h>
#include <string.h>

enum { FILE_MAX = 65536 };

static uint8_t file[FILE_MAX + 1]; /* one more than is taken: a longer file fills it */

/* Says that a file is left out, and why, with the system's own reason if there is one; answers 0, for `take`. */
static size_t leave_out(const char *name, const char *why, int error)
{
    fputs("month: ", stderr);
    for (const char *at = name; *at; at++) {
        unsigned char octet = (unsigned char)*at;
        if (octet < ' ' || octet == 127 || octet == '\\')
            fprintf(stderr, "\\%03o", (unsigned)octet);
        else
            fputc(octet, stderr);
    }
    fprintf(stderr, ": left out: %s%s%s\n", why, error ? ": " : "", error ? strerror(error) : "");
    return 0;
}

/* Reads a file, and answers its octets; 0 if it is left out. */
static size_t take(const char *name)
{
    errno = 0;
    FILE *from = fopen(name, "rb");

    if (!from)
        return leave_out(name, "cannot be opened", errno);
    size_t len = fread(file, 1, sizeof file, from);
    int failed = ferror(from), error = errno;
    fclose(from);
    if (failed)
        return leave_out(name, "cannot be read to its end", error);
    if (len > FILE_MAX)
        return leave_out(name, "more than 65536 octets", 0);
    return len > 0 ? len : leave_out(name, "empty", 0);
}

/* Whether the text of a report, all of it, has gone out: what is still held back is written as the output is closed. */
static int put_text(dsss_report report)
{
    uint8_t text[DSSS_TEXT_MAX];
    dsss_text told = dsss_report_text(report, text, sizeof text);

    return told.number == 0 && fwrite(text, 1, (size_t)told.octets, stdout) == told.octets && fclose(stdout) == 0;
}

/* promise: The program month counts the recordings of the files named to it, in their order, leaves out a file that is
 * empty, longer than 65,536 octets or not to be read to its end, and prints the report's text and nothing else; its
 * status is 0, and another only if the text cannot be written
 * rule: 6.21
 * no edit: it is C, which no proof covers; tests/wrong/table/month has wrong versions of it */
int main(int argc, char **argv)
{
    dsss_report report = {0};
    uint64_t after = 0; /* recordings after the thousandth */

    setvbuf(stderr, NULL, _IOLBF, BUFSIZ); /* whole lines, where others write too */
    for (int k = 1; k < argc; k++) {
        size_t len = take(argv[k]);
        if (len > 0) {
            dsss_counted counted = dsss_report_add(report, file[0], file + 1, len - 1);
            report = counted.report; /* a full report answers 31 and stays as it is */
            after += counted.number == DSSS_REFUSED_REPORT;
        }
    }
    if (after > 0)
        fprintf(stderr, "month: recordings after the thousandth, not counted: %" PRIu64 "\n", after);
    if (!put_text(report)) {
        fputs("month: cannot write the report\n", stderr);
        return EXIT_FAILURE;
    }
    return EXIT_SUCCESS;
}
