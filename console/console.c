/*
 * console [--space N] FILE
 *
 * Prints the report on the sheet in FILE. Exit status: 0 a report; 1 a line was refused; 2 the
 * space lent (N bytes, otherwise as many as any report needs) is too short; 3 the sheet cannot be
 * read, the report cannot be written, or the command line is wrong.
 */
#include "../include/cue_report.h"

#include <errno.h>
#include <stdio.h>
#include <stdlib.h>
#include <string.h>

/* A book holds 2,048 lines. One more shows that it is full, and nothing after that is looked at. */
enum { SHEET_BYTES = 2049 * 16, MOST_SPACE = 1000000 };

enum { REPORTED = 0, REFUSED = 1, TOO_SHORT = 2, FAILED = 3 };

static const char *refusal_in_words(unsigned number)
{
    switch (number) {
    case 1:
        return "it is not 15 columns and a line feed";
    case 2:
        return "columns 1 to 4 hold no cue number";
    case 3:
        return "column 6 is not r, w, c or a, or column 5 or 7 is not blank";
    case 4:
        return "columns 8 to 15 hold no axis for r or w, or are not blank for c or a";
    case 11:
        return "the cue is not numbered 1 to 64";
    case 12:
        return "the cue has committed or aborted before";
    case 13:
        return "the book is full: it holds 2048 lines";
    default:
        return "the number of the refusal is not known here";
    }
}

/* The number in five columns of a report. */
static unsigned column_number(const uint8_t *columns)
{
    unsigned value = 0;
    for (int n = 0; n < 5; n++)
        if (columns[n] != ' ')
            value = value * 10 + (unsigned)(columns[n] - '0');
    return value;
}

static int usage(void)
{
    fprintf(stderr, "usage: console [--space N] FILE (N from 0 to %d)\n", MOST_SPACE);
    return FAILED;
}

int main(int argc, char **argv)
{
    static uint8_t sheet[SHEET_BYTES];
    size_t space_len = CUE_REPORT_SPACE;
    int at = 1;

    if (argc > 2 && strcmp(argv[1], "--space") == 0) {
        char *end;
        long value = strtol(argv[2], &end, 10);
        if (*argv[2] == 0 || *end != 0 || value < 0 || value > MOST_SPACE)
            return usage();
        space_len = (size_t)value;
        at = 3;
    }
    if (argc != at + 1)
        return usage();

    const char *name = argv[at];
    FILE *file = fopen(name, "rb");
    if (!file) {
        fprintf(stderr, "console: %s cannot be opened: %s\n", name, strerror(errno));
        return FAILED;
    }
    size_t sheet_len = fread(sheet, 1, sizeof sheet, file);
    if (ferror(file)) {
        fprintf(stderr, "console: %s cannot be read: %s\n", name, strerror(errno));
        fclose(file);
        return FAILED;
    }
    fclose(file);

    /* One byte more, because a space of 0 bytes still needs an address. */
    uint8_t *space = malloc(space_len + 1);
    if (!space) {
        fprintf(stderr, "console: there is no memory for a space of %zu bytes\n", space_len);
        return FAILED;
    }
    int status = REPORTED;
    size_t answer = cue_report(sheet, sheet_len, space, space_len);
    if (answer == CUE_REPORT_SPACE_SHORT) {
        fprintf(stderr, "console: a space of %zu bytes is too short for a report, which needs %d\n",
                space_len, CUE_REPORT_SPACE);
        status = TOO_SHORT;
    } else if (fwrite(space, 1, answer, stdout) != answer || fflush(stdout) != 0) {
        fprintf(stderr, "console: the report cannot be written: %s\n", strerror(errno));
        status = FAILED;
    } else if (memcmp(space, "fault", 5) == 0) {
        fprintf(stderr, "console: line %u of %s is refused: %s\n", column_number(space + 10), name,
                refusal_in_words(column_number(space + 5)));
        status = REFUSED;
    }
    free(space);
    return status;
}
