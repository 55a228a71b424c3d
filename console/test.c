/*
 * test answer FILE    asks for the report on the sheet in FILE several times and prints it
 * test short FILE     asks with every space that is too short
 *
 * Both end with a sentence on stderr and exit status 1 when the call breaks its contract. The sheet
 * and the space each end where a page begins that may not be touched, and the sheet may not be
 * written, so that a call that strays by a byte ends the program.
 */
#define _DEFAULT_SOURCE

#include "../include/cue_report.h"

#include <stdbool.h>
#include <stdio.h>
#include <stdlib.h>
#include <string.h>
#include <sys/mman.h>
#include <unistd.h>

enum { MOST_BYTES = 1 << 20 };

static void fail(const char *what)
{
    fprintf(stderr, "test: %s\n", what);
    exit(1);
}

/* Memory of len bytes with a forbidden page behind it. */
static uint8_t *fenced(size_t len, uint8_t **start, size_t *whole)
{
    size_t page = (size_t)sysconf(_SC_PAGESIZE);
    *whole = (len + page - 1) / page * page;
    *start = mmap(NULL, *whole + page, PROT_READ | PROT_WRITE, MAP_PRIVATE | MAP_ANONYMOUS, -1, 0);
    if (*start == MAP_FAILED || mprotect(*start + *whole, page, PROT_NONE) != 0)
        fail("there is no memory");
    return *start + *whole - len;
}

static uint8_t *read_sheet(const char *name, size_t *len)
{
    static uint8_t bytes[MOST_BYTES];
    uint8_t *start;
    size_t whole;

    FILE *file = fopen(name, "rb");
    if (!file)
        fail("the sheet cannot be opened");
    *len = fread(bytes, 1, sizeof bytes, file);
    fclose(file);
    uint8_t *sheet = fenced(*len, &start, &whole);
    memcpy(sheet, bytes, *len);
    if (whole > 0 && mprotect(start, whole, PROT_READ) != 0)
        fail("the sheet cannot be protected");
    return sheet;
}

static bool all_are(const uint8_t *bytes, size_t from, size_t to, uint8_t value)
{
    for (size_t at = from; at < to; at++)
        if (bytes[at] != value)
            return false;
    return true;
}

static void answer(const uint8_t *sheet, size_t sheet_len)
{
    static const size_t spaces[] = {CUE_REPORT_SPACE, CUE_REPORT_SPACE + 1, 5000};
    /* No report has any of these bytes, so one that is left out is seen, and so is one too many. */
    static const uint8_t patterns[] = {0x00, 0xa5, 0xff};
    uint8_t first[CUE_REPORT_SPACE];
    size_t first_len = 0;

    for (unsigned s = 0; s < 3; s++) {
        uint8_t *start;
        size_t whole;
        uint8_t *space = fenced(spaces[s], &start, &whole);
        for (unsigned p = 0; p < 3; p++) {
            memset(start, patterns[p], whole);
            size_t len = cue_report(sheet, sheet_len, space, spaces[s]);
            if (len == CUE_REPORT_SPACE_SHORT)
                fail("a space that is long enough is answered by 25");
            if (len > CUE_REPORT_SPACE)
                fail("a report is longer than 388 bytes");
            if (!all_are(start, 0, (size_t)(space - start), patterns[p]))
                fail("bytes in front of the space were written");
            if (!all_are(space, len, spaces[s], patterns[p]))
                fail("bytes past the report were written");
            if (memchr(space, patterns[p], len))
                fail("a byte of the report was not written");
            if (s == 0 && p == 0) {
                memcpy(first, space, len);
                first_len = len;
            } else if (len != first_len || memcmp(first, space, len) != 0) {
                fail("the same sheet has got two reports");
            }
        }
    }
    fwrite(first, 1, first_len, stdout);
}

static void short_space(const uint8_t *sheet, size_t sheet_len)
{
    uint8_t *start, *forbidden;
    size_t whole;

    forbidden = fenced(0, &start, &whole);
    for (size_t len = 0; len < CUE_REPORT_SPACE; len++) {
        uint8_t *space = fenced(len, &start, &whole);
        memset(start, 0xa5, whole);
        if (cue_report(sheet, sheet_len, space, len) != CUE_REPORT_SPACE_SHORT)
            fail("a space that is too short is not answered by 25");
        /* The space comes first: a sheet that cannot be read does no harm. */
        if (cue_report(forbidden, sheet_len, space, len) != CUE_REPORT_SPACE_SHORT)
            fail("a space that is too short is not answered by 25");
        if (!all_are(start, 0, whole, 0xa5))
            fail("a space that is too short was written to");
        munmap(start, whole + (size_t)sysconf(_SC_PAGESIZE));
    }
}

int main(int argc, char **argv)
{
    if (argc != 3)
        fail("usage: test answer|short FILE");
    size_t sheet_len;
    const uint8_t *sheet = read_sheet(argv[2], &sheet_len);
    if (strcmp(argv[1], "answer") == 0)
        answer(sheet, sheet_len);
    else if (strcmp(argv[1], "short") == 0)
        short_space(sheet, sheet_len);
    else
        fail("usage: test answer|short FILE");
    return fflush(stdout) == 0 ? 0 : 1;
}
