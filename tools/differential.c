/*
 * differential COUNT SEED
 *
 * Gives COUNT random sheets to cue_report and to ref_report, and small ones to brute_report too,
 * and stops at the first difference. The sheet number n is made from SEED + n alone, so that a
 * difference is shown again by "differential 1 SEED-OF-THE-SHEET".
 */
#include "../bench/reference.h"
#include "../include/cue_report.h"
#include "brute.h"
#include "compare.h"
#include "sheet.h"

#include <stdbool.h>
#include <stdio.h>
#include <stdlib.h>
#include <string.h>

enum { ROOM = 512, MAX_CUES = 64 };

struct tally {
    unsigned long fault[16], class[4], order, cycle, views, vnone, vmany;
    unsigned long cycle_with_views, eight_committed, nine_committed, full, brute, short_space;
};

static bool one_in(struct dice *dice, unsigned n)
{
    return dice_below(dice, n) == 0;
}

static unsigned between(struct dice *dice, unsigned low, unsigned high)
{
    return low + dice_below(dice, high - low + 1);
}

static unsigned pick_axes(struct dice *dice, unsigned *axes, unsigned count)
{
    for (unsigned n = 0; n < count; n++)
        axes[n] = one_in(dice, 2) ? n : dice_below(dice, 65536);
    if (one_in(dice, 20))
        axes[0] = 65535;
    return count;
}

/* Takes one of the first *count cues out of the list. */
static unsigned take_cue(struct dice *dice, unsigned *cues, unsigned *count)
{
    unsigned n = dice_below(dice, *count);
    unsigned cue = cues[n];
    cues[n] = cues[--*count];
    return cue;
}

/*
 * A book of some cues and items with endings anywhere. Entries after an ending would be refused
 * and hide what follows, so they come only now and then.
 */
static void random_book(struct dice *dice, struct sheet *sheet, unsigned cue_count,
                        unsigned axis_count, unsigned lines)
{
    unsigned cues[MAX_CUES], axes[64], left = cue_count;
    unsigned write_share = between(dice, 1, 9), end_share = between(dice, 3, 40);
    unsigned abort_share = between(dice, 2, 8);
    bool late = one_in(dice, 30);

    dice_cues(dice, cues, cue_count);
    pick_axes(dice, axes, axis_count);
    for (unsigned n = 0; n < lines && left > 0; n++) {
        if (one_in(dice, end_share)) {
            unsigned cue = take_cue(dice, cues, &left);
            sheet_add(sheet, cue, one_in(dice, abort_share) ? 'a' : 'c', 0);
            if (late && one_in(dice, 4))
                sheet_add(sheet, cue, "rwca"[dice_below(dice, 4)], axes[0]);
            continue;
        }
        sheet_add(sheet, cues[dice_below(dice, left)],
                  dice_below(dice, 10) < write_share ? 'w' : 'r',
                  axes[dice_below(dice, axis_count)]);
    }

    /* A cue that overwrites all at the end hides what others wrote: views without an order. */
    if (left > 0 && one_in(dice, 3))
        for (unsigned n = 0; n < axis_count && n < 8; n++)
            sheet_add(sheet, cues[0], 'w', axes[n]);
    while (left > 0 && !one_in(dice, 12)) {
        unsigned cue = take_cue(dice, cues, &left);
        sheet_add(sheet, cue, one_in(dice, 3 * abort_share) ? 'a' : 'c', 0);
    }
}

struct step {
    unsigned cue, axis;
    char letter;
};

/* Whether the entry at this place and the next can change places without harm to a view. */
static bool may_swap(const struct step *list, unsigned count, unsigned at)
{
    const struct step *a = &list[at], *b = &list[at + 1];

    if (a->axis != b->axis || (a->letter == 'r' && b->letter == 'r'))
        return true;
    if (a->letter != b->letter)
        return false;
    /* Two writes that nobody reads before the next one: neither is a source or the last. */
    for (unsigned n = at + 2; n < count; n++)
        if (list[n].axis == a->axis)
            return list[n].letter == 'w';
    return false;
}

/*
 * A serial book whose neighbouring entries are then swapped at random, mostly without harm to a
 * view: with many committed cues a book without such care has hardly ever an order or a view.
 */
static void shuffled_serial_book(struct dice *dice, struct sheet *sheet, unsigned cue_count)
{
    struct step list[160];
    unsigned cues[MAX_CUES], axes[64], count = 0;
    unsigned axis_count = pick_axes(dice, axes, between(dice, 1, 6));
    unsigned per_cue = between(dice, 1, 6), write_share = between(dice, 2, 9);

    dice_cues(dice, cues, cue_count);
    for (unsigned c = 0; c < cue_count; c++)
        for (unsigned n = between(dice, 1, per_cue); n > 0; n--) {
            list[count].cue = cues[c];
            list[count].axis = axes[dice_below(dice, axis_count)];
            list[count++].letter = dice_below(dice, 10) < write_share ? 'w' : 'r';
        }
    if (one_in(dice, 2))
        for (unsigned n = 0; n < axis_count; n++) {
            list[count].cue = cues[cue_count - 1];
            list[count].axis = axes[n];
            list[count++].letter = 'w';
        }

    unsigned careless = one_in(dice, 2) ? 0 : between(dice, 10, 200);
    for (unsigned n = dice_below(dice, 40 * count); count > 1 && n > 0; n--) {
        unsigned at = dice_below(dice, count - 1);
        if (list[at].cue == list[at + 1].cue ||
            (!may_swap(list, count, at) && !(careless && one_in(dice, careless))))
            continue;
        struct step step = list[at];
        list[at] = list[at + 1];
        list[at + 1] = step;
    }

    for (unsigned n = 0; n < count; n++)
        sheet_add(sheet, list[n].cue, list[n].letter, list[n].axis);
    while (cue_count > 0)
        sheet_add(sheet, take_cue(dice, cues, &cue_count), one_in(dice, 60) ? 'a' : 'c', 0);
}

static void long_book(struct dice *dice, struct sheet *sheet)
{
    static const unsigned sizes[] = {1, 2, 5, 8, 9, 63, 64};
    unsigned cue_count = sizes[dice_below(dice, 7)];
    unsigned axis_count = between(dice, 1, one_in(dice, 2) ? 3 : 60);
    unsigned lines = one_in(dice, 2) ? between(dice, 100, 1000) : between(dice, 2046, 2049);
    unsigned cues[MAX_CUES], left = cue_count;
    bool wide = one_in(dice, 2), gentle = one_in(dice, 2);

    /* The endings are kept for the last lines, or a long book would run out of cues. */
    dice_cues(dice, cues, cue_count);
    for (unsigned n = 0; n < lines; n++) {
        if (lines - n <= left && !one_in(dice, 50)) {
            sheet_add(sheet, take_cue(dice, cues, &left), one_in(dice, 6) ? 'a' : 'c', 0);
        } else if (left > 0) {
            unsigned axis = dice_below(dice, wide ? 65536 : axis_count);
            sheet_add(sheet, cues[dice_below(dice, left)], gentle && !one_in(dice, 100) ? 'r' : 'w',
                      axis);
        }
    }
}

static void set_field(struct sheet *sheet, const char *text, unsigned column)
{
    size_t line = sheet->len / 16;
    if (line > 0)
        memcpy(sheet->bytes + (line - 1) * 16 + column - 1, text, strlen(text));
}

/* One thing wrong somewhere. Fields are spoilt in the last line, so that those before it count. */
static void damage(struct dice *dice, struct sheet *sheet)
{
    static const char bytes[] = " \n\r\t0159rwcaRWCA-+.xz\0\x7f\xff\xa0";
    static const char *const cue_fields[] = {"   0", "  65", "  64", " 100", "9999", "  01", "0001",
                                             "    ", "1   ", " 1  ", "1  1", "  -1", "  +1", "   x",
                                             "0000", "  1\t"};
    static const char *const items[] = {"   65535", "   65536", "99999999", "00000005", "      05",
                                        "        ", "5       ", "       0", "      -1", "      0x",
                                        "  1 2345", "   70000", "  100000", "       a"};
    static const char *const letters[] = {" r ", " w ", " c ", " a ", " R ", "xr ", " rx", "r  ",
                                          "  r", "   ", "\tr ", " r\t", "0w ", " c0"};
    size_t at;

    if (sheet->len == 0)
        sheet_add(sheet, 1, 'r', 0);
    switch (dice_below(dice, 8)) {
    case 0:
        sheet->bytes[dice_below(dice, (unsigned)sheet->len)] =
            (uint8_t)bytes[dice_below(dice, sizeof bytes - 1)];
        break;
    case 1:
        sheet->len -= dice_below(dice, sheet->len < 17 ? (unsigned)sheet->len : 17);
        break;
    case 2:
        at = dice_below(dice, (unsigned)sheet->len);
        memmove(sheet->bytes + at, sheet->bytes + at + 1, sheet->len - at - 1);
        sheet->len--;
        break;
    case 3:
        at = dice_below(dice, (unsigned)sheet->len);
        if (sheet->len < SHEET_ROOM) {
            memmove(sheet->bytes + at + 1, sheet->bytes + at, sheet->len - at);
            sheet->bytes[at] = (uint8_t)bytes[dice_below(dice, sizeof bytes - 1)];
            sheet->len++;
        }
        break;
    case 4:
        set_field(sheet, cue_fields[dice_below(dice, 16)], 1);
        break;
    case 5:
        set_field(sheet, items[dice_below(dice, 14)], 8);
        break;
    case 6:
        set_field(sheet, letters[dice_below(dice, 14)], 5);
        break;
    default:
        for (unsigned n = between(dice, 1, 6); n > 0; n--)
            sheet->bytes[dice_below(dice, (unsigned)sheet->len)] = (uint8_t)dice_below(dice, 256);
    }
}

static void random_sheet(struct dice *dice, struct sheet *sheet)
{
    unsigned kind = dice_below(dice, 1000);

    sheet->len = 0;
    if (kind < 500) {
        random_book(dice, sheet, between(dice, 2, 5), between(dice, 1, 3), between(dice, 1, 16));
    } else if (kind < 640) {
        random_book(dice, sheet, between(dice, 1, 12), between(dice, 1, 6), between(dice, 1, 50));
    } else if (kind < 840) {
        shuffled_serial_book(dice, sheet, between(dice, 2, 10));
    } else if (kind < 900) {
        random_book(dice, sheet, between(dice, 10, 64), between(dice, 1, 64), between(dice, 20, 400));
    } else if (kind < 910) {
        long_book(dice, sheet);
    } else if (kind < 915) {
        unsigned len = dice_below(dice, 80);
        while (sheet->len < len)
            sheet->bytes[sheet->len++] = (uint8_t)dice_below(dice, 256);
    } else {
        random_book(dice, sheet, between(dice, 1, 6), between(dice, 1, 3), between(dice, 0, 6));
        damage(dice, sheet);
        if (one_in(dice, 2))
            damage(dice, sheet);
        return;
    }
    if (one_in(dice, 25))
        damage(dice, sheet);
}

static unsigned committed_cues(const struct sheet *sheet)
{
    unsigned count = 0;
    for (size_t at = 0; at + 16 <= sheet->len; at += 16)
        count += sheet->bytes[at + 5] == 'c';
    return count;
}

static void count_answer(struct tally *tally, const struct sheet *sheet, const uint8_t *text,
                         size_t len)
{
    char word[ROOM + 1];
    memcpy(word, text, len);
    word[len] = 0;
    if (strncmp(word, "fault", 5) == 0) {
        tally->fault[atoi(word + 5) % 16]++;
        return;
    }
    unsigned committed = committed_cues(sheet);
    bool cycle = strstr(word, "cycle") != NULL, views = strstr(word, "views") != NULL;
    tally->class[atoi(word + 5) % 4]++;
    tally->cycle += cycle;
    tally->order += !cycle;
    tally->views += views;
    tally->vnone += strstr(word, "vnone") != NULL;
    tally->vmany += strstr(word, "vmany") != NULL;
    tally->cycle_with_views += cycle && views;
    tally->eight_committed += committed == 8;
    tally->nine_committed += committed == 9;
    tally->full += sheet->len == 2048 * 16;
}

static void print_tally(const struct tally *tally)
{
    printf("faults  ");
    for (int n = 0; n < 16; n++)
        if (tally->fault[n])
            printf(" %d: %lu ", n, tally->fault[n]);
    printf("\nclasses  0: %lu  1: %lu  2: %lu  3: %lu\n", tally->class[0], tally->class[1],
           tally->class[2], tally->class[3]);
    printf("order %lu, cycle %lu; views %lu, vnone %lu, vmany %lu; cycle with views %lu\n",
           tally->order, tally->cycle, tally->views, tally->vnone, tally->vmany,
           tally->cycle_with_views);
    printf("8 committed %lu, 9 committed %lu, full books %lu, also by brute force %lu, "
           "short spaces %lu\n",
           tally->eight_committed, tally->nine_committed, tally->full, tally->brute,
           tally->short_space);
}

static int show_difference(const char *what, unsigned long long seed, const struct sheet *sheet,
                           const char *name_one, const uint8_t *one, size_t one_len,
                           const char *name_two, const uint8_t *two, size_t two_len)
{
    printf("DIFFERENCE: %s\nseed of the sheet: %llu\nsheet, %zu bytes:\n", what, seed, sheet->len);
    fwrite(sheet->bytes, 1, sheet->len, stdout);
    printf("[end of the sheet]\n%s, answer %zu:\n", name_one, one_len);
    fwrite(one, 1, one_len < ROOM ? one_len : ROOM, stdout);
    printf("[end]\n%s, answer %zu:\n", name_two, two_len);
    fwrite(two, 1, two_len < ROOM ? two_len : ROOM, stdout);
    printf("[end]\n");
    return 1;
}

static bool all_are(const uint8_t *bytes, size_t from, size_t to, uint8_t value)
{
    for (size_t at = from; at < to; at++)
        if (bytes[at] != value)
            return false;
    return true;
}

int main(int argc, char **argv)
{
    static struct sheet sheet;
    static struct tally tally;
    static uint8_t product[ROOM], reference[ROOM], brute[ROOM];

    if (argc != 3) {
        fprintf(stderr, "usage: differential COUNT SEED\n");
        return 2;
    }
    unsigned long long count = strtoull(argv[1], NULL, 10), first = strtoull(argv[2], NULL, 10);

    for (unsigned long long n = 0; n < count; n++) {
        struct dice dice;
        dice_seed(&dice, (first + n) * 0x2545f4914f6cdd1du);
        random_sheet(&dice, &sheet);

        /* The pattern is random as well: a fixed one could be what is written by mistake. */
        uint8_t pattern = (uint8_t)dice_below(&dice, 256);
        size_t space = one_in(&dice, 50)   ? dice_below(&dice, 388)
                       : one_in(&dice, 10) ? between(&dice, 388, ROOM)
                                           : 388;
        memset(product, pattern, ROOM);
        memset(reference, pattern, ROOM);
        size_t product_len = cue_report(sheet.bytes, sheet.len, product, space);
        size_t reference_len = ref_report(sheet.bytes, sheet.len, reference, space);
        const char *what = NULL;
        if (space < 388) {
            tally.short_space++;
            if (product_len != 25 || reference_len != 25)
                what = "a short space is not answered by 25";
            else if (!all_are(product, 0, ROOM, pattern) || !all_are(reference, 0, ROOM, pattern))
                what = "a short space was written to";
        } else if (product_len > 388 || reference_len > 388) {
            what = "a report is longer than 388 bytes";
        } else if (!all_are(product, product_len, ROOM, pattern) ||
                   !all_are(reference, reference_len, ROOM, pattern)) {
            what = "bytes past the report were written";
        } else {
            what = compare_reports(sheet.bytes, sheet.len, product, product_len, reference,
                                   reference_len);
        }
        if (what)
            return show_difference(what, first + n, &sheet, "cue_report", product, product_len,
                                   "ref_report", reference, reference_len);
        if (space < 388)
            continue;
        count_answer(&tally, &sheet, reference, reference_len);

        /* All orders of 7 or 8 cues take their time, so they are tried less often. */
        unsigned most = one_in(&dice, 20) ? 8 : one_in(&dice, 4) ? 7 : 6;
        size_t brute_len = brute_report(sheet.bytes, sheet.len, brute, ROOM, most);
        if (brute_len == 0)
            continue;
        tally.brute++;
        what = compare_reports(sheet.bytes, sheet.len, reference, reference_len, brute, brute_len);
        if (what)
            return show_difference(what, first + n, &sheet, "ref_report", reference, reference_len,
                                   "brute_report", brute, brute_len);
    }
    printf("%llu sheets from seed %llu: no difference\n", count, first);
    print_tally(&tally);
    return 0;
}
