/* half.c: files that fail halfway, for tests/month/run, which builds `month` with -Dfopen=half_open.
 *
 * A file whose name begins with "half" is read up to its first 3,000 octets, and then no further; all others are opened
 * as ever. */
#define _GNU_SOURCE
#undef fopen
#include <errno.h>
#include <stdio.h>
#include <string.h>

enum { FIRST = 3000 };

static FILE *file;
static size_t left;

static ssize_t read_half(void *unused, char *to, size_t len)
{
    (void)unused;
    if (left == 0) {
        errno = EIO;
        return -1;
    }
    size_t got = fread(to, 1, len < left ? len : left, file);
    left -= got;
    return (ssize_t)got;
}

static int close_half(void *unused)
{
    (void)unused;
    return fclose(file);
}

FILE *half_open(const char *name, const char *mode)
{
    const cookie_io_functions_t calls = {read_half, NULL, NULL, close_half};

    if (strncmp(name, "half", 4) != 0)
        return fopen(name, mode);
    file = fopen(name, mode);
    left = FIRST;
    return file ? fopencookie(NULL, mode, calls) : NULL;
}
