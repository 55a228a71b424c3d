/*
 * bench [FILE...]
 *
 * Times cue_report and ref_report on sheets of several kinds, and on the sheets in the files, after
 * seeing that both give the same report. It judges no time; a difference ends it with status 1.
 */
#define _POSIX_C_SOURCE 200809L

#include "../include/cue_report.h"
#include "../tools/compare.h"
#include "../tools/sheet.h"
#include "reference.h"

#include <stdio.h>
#include <stdlib.h>
#include <string.h>
#include <time.h>

enum { FULL = 2048 };

typedef size_t report_call(const uint8_t *, size_t, uint8_t *, size_t);

static struct sheet sheet;

static void add(unsigned cue, char letter, unsigned axis)
{
    sheet_add(&sheet, cue, letter, axis);
}

static void commit_all(unsigned from, unsigned to)
{
    for (unsigned cue = from; cue <= to; cue++)
        add(cue, 'c', 0);
}

static void four_lines(void)
{
    add(1, 'w', 5);
    add(2, 'r', 5);
    commit_all(1, 2);
}

/* Reads and writes by turns of the dice, and all commits in the last lines. */
static void random_full(unsigned cues, unsigned axes)
{
    struct dice dice;
    dice_seed(&dice, 7);
    for (unsigned n = 0; n < FULL - cues; n++) {
        unsigned cue = 1 + dice_below(&dice, cues);
        char letter = "rw"[dice_below(&dice, 2)];
        add(cue, letter, dice_below(&dice, axes));
    }
    commit_all(1, cues);
}

static void cues_64_axes_any(void)
{
    random_full(64, 65536);
}

static void cues_64_axes_100(void)
{
    random_full(64, 100);
}

static void cues_8_axes_any(void)
{
    random_full(8, 65536);
}

static void cues_8_axis_1(void)
{
    random_full(8, 1);
}

static void cues_8_distinct_writes(void)
{
    for (unsigned n = 0; n < FULL - 8; n++)
        add(1 + n % 8, 'w', 32 * n);
    commit_all(1, 8);
}

static void cues_64_distinct_writes(void)
{
    for (unsigned n = 0; n < FULL - 64; n++)
        add(1 + n % 64, 'w', 32 * n);
    commit_all(1, 64);
}

/* The book is serial, from the last cue to the first: a view exists, and all entries conflict. */
static void cues_8_backwards(void)
{
    for (unsigned cue = 8; cue >= 1; cue--) {
        for (unsigned n = 0; n < FULL / 8 - 1; n++)
            add(cue, n % 2 ? 'w' : 'r', 1);
        add(cue, 'c', 0);
    }
}

static void cues_64_backwards(void)
{
    for (unsigned cue = 64; cue >= 1; cue--) {
        for (unsigned n = 0; n < FULL / 64 - 1; n++)
            add(cue, n % 2 ? 'w' : 'r', 1);
        add(cue, 'c', 0);
    }
}

/* Each cue must come before the next and the last before the first: the longest cycle there is. */
static void cycle_of_64(void)
{
    for (unsigned n = 0; n < FULL - 128 - 64; n++)
        add(1 + n % 64, 'r', 1000 + n);
    for (unsigned cue = 1; cue <= 64; cue++)
        add(cue, 'r', cue);
    for (unsigned cue = 1; cue <= 64; cue++)
        add(cue % 64 + 1, 'w', cue);
    commit_all(1, 64);
}

/* Cues 7 and 8 forbid each other, which a search sees only after it has placed the others. */
static void late_vnone(void)
{
    add(7, 'r', 1);
    add(8, 'r', 2);
    add(8, 'w', 1);
    add(7, 'w', 2);
    for (unsigned n = 0; n < FULL - 12; n++)
        add(1 + n % 6, 'w', 10 + n);
    commit_all(1, 8);
}

/* The same, with nothing but reads of the initial state by the cues that are free. */
static void late_vnone_reads(void)
{
    add(7, 'r', 1);
    add(8, 'r', 2);
    add(8, 'w', 1);
    add(7, 'w', 2);
    for (unsigned n = 0; n < FULL - 12; n++)
        add(1 + n % 6, 'r', 10 + n);
    commit_all(1, 8);
}

/* Cue 64 reads an axis behind all that 63 cues wrote to it and took back. */
static void aborted_writes(void)
{
    for (unsigned n = 0; n < 961; n++)
        add(1 + n % 63, 'w', 1);
    for (unsigned cue = 1; cue <= 63; cue++)
        add(cue, 'a', 0);
    while (sheet.len / 16 < FULL - 1)
        add(64, 'r', 1);
    commit_all(64, 64);
}

/* Axes that all start from a few neighbouring slots of the reference's hash table. */
static void crowded_axes(void)
{
    unsigned axis = 0;
    for (unsigned n = 0; n < FULL - 8; n++, axis++) {
        while ((axis * 40503u >> 4 & 4095) > 256)
            axis++;
        add(1 + n % 8, 'w', axis);
    }
    commit_all(1, 8);
}

static const struct {
    const char *name;
    void (*make)(void);
} kinds[] = {
    {"4 lines", four_lines},
    {"full, 64 cues, any of 65,536 axes", cues_64_axes_any},
    {"full, 64 cues, 100 axes", cues_64_axes_100},
    {"full, 8 cues, any of 65,536 axes", cues_8_axes_any},
    {"full, 8 cues, one axis", cues_8_axis_1},
    {"full, 8 cues, writes of distinct axes", cues_8_distinct_writes},
    {"full, 64 cues, writes of distinct axes", cues_64_distinct_writes},
    {"full, 8 cues one after another, one axis", cues_8_backwards},
    {"full, 64 cues one after another, one axis", cues_64_backwards},
    {"full, a cycle of 64 cues", cycle_of_64},
    {"full, no view, seen late, writes", late_vnone},
    {"full, no view, seen late, reads", late_vnone_reads},
    {"full, reads behind aborted writes", aborted_writes},
    {"full, axes that crowd the reference's table", crowded_axes},
};

static double seconds(void)
{
    struct timespec now;
    clock_gettime(CLOCK_MONOTONIC, &now);
    return (double)now.tv_sec + (double)now.tv_nsec * 1e-9;
}

static double time_calls(report_call *call, uint8_t *space, unsigned long calls)
{
    double start = seconds();
    for (unsigned long n = 0; n < calls; n++)
        call(sheet.bytes, sheet.len, space, CUE_REPORT_SPACE);
    return (seconds() - start) / (double)calls;
}

/* As many calls as take about a fiftieth of a second, so that the clock's steps do not count. */
static unsigned long enough_calls(report_call *call, uint8_t *space)
{
    unsigned long calls = 1;
    for (;;) {
        double took = time_calls(call, space, calls) * (double)calls;
        if (took > 0.01 || calls > 10000000)
            return took > 0.02 ? calls : calls * 2;
        calls *= 2;
    }
}

/* Other work on the machine only makes a run longer, so the shortest of a few is taken. */
static int bench(const char *name)
{
    static uint8_t product[CUE_REPORT_SPACE], reference[CUE_REPORT_SPACE];

    size_t product_len = cue_report(sheet.bytes, sheet.len, product, sizeof product);
    size_t reference_len = ref_report(sheet.bytes, sheet.len, reference, sizeof reference);
    const char *what = compare_reports(sheet.bytes, sheet.len, product, product_len, reference,
                                       reference_len);
    if (what) {
        printf("%s: %s\ncue_report:\n%.*sref_report:\n%.*s", name, what, (int)product_len,
               (const char *)product, (int)reference_len, (const char *)reference);
        return 1;
    }

    unsigned long product_calls = enough_calls(cue_report, product);
    unsigned long reference_calls = enough_calls(ref_report, reference);
    double product_best = 1e9, reference_best = 1e9;
    for (int round = 0; round < 5; round++) {
        double took = time_calls(cue_report, product, product_calls);
        product_best = took < product_best ? took : product_best;
        took = time_calls(ref_report, reference, reference_calls);
        reference_best = took < reference_best ? took : reference_best;
    }
    printf("%-44s %12.2f %12.2f %8.2f\n", name, product_best * 1e6, reference_best * 1e6,
           product_best / reference_best);
    fflush(stdout);
    return 0;
}

int main(int argc, char **argv)
{
    printf("One process, warm. The answer space is not cleared between calls, nor is the sheet\n"
           "changed; each call has the same %d bytes. Shortest of 5 runs, microseconds a call.\n\n",
           CUE_REPORT_SPACE);
    printf("%-44s %12s %12s %8s\n", "sheet", "cue_report", "ref_report", "ratio");
    for (size_t n = 0; n < sizeof kinds / sizeof kinds[0]; n++) {
        sheet.len = 0;
        kinds[n].make();
        if (bench(kinds[n].name) != 0)
            return 1;
    }
    for (int n = 1; n < argc; n++) {
        FILE *file = fopen(argv[n], "rb");
        if (!file) {
            fprintf(stderr, "bench: %s cannot be opened\n", argv[n]);
            return 2;
        }
        sheet.len = fread(sheet.bytes, 1, sizeof sheet.bytes, file);
        fclose(file);
        if (bench(argv[n]) != 0)
            return 1;
    }
    return 0;
}
