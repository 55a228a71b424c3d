#include "sheet.h"

#include <stdio.h>
#include <string.h>

void sheet_add(struct sheet *sheet, unsigned cue, char letter, unsigned axis)
{
    char line[32];

    if (sheet->len + 16 > SHEET_ROOM)
        return;
    if (letter == 'r' || letter == 'w')
        snprintf(line, sizeof line, "%4u %c %8u\n", cue % 10000, letter, axis % 100000000);
    else
        snprintf(line, sizeof line, "%4u %c %8s\n", cue % 10000, letter, "");
    memcpy(sheet->bytes + sheet->len, line, 16);
    sheet->len += 16;
}

void dice_seed(struct dice *dice, uint64_t seed)
{
    dice->state = seed;
}

/* Neighbouring seeds must give unlike rows, since each sheet has the seed after the one before. */
unsigned dice_below(struct dice *dice, unsigned limit)
{
    uint64_t x = dice->state += 0x9e3779b97f4a7c15u;
    x = (x ^ x >> 30) * 0xbf58476d1ce4e5b9u;
    x = (x ^ x >> 27) * 0x94d049bb133111ebu;
    x ^= x >> 31;
    return (unsigned)((x >> 32) * limit >> 32);
}

void dice_cues(struct dice *dice, unsigned *cues, unsigned count)
{
    unsigned all[64];

    for (unsigned n = 0; n < 64; n++)
        all[n] = n + 1;
    for (unsigned n = 0; n < count; n++) {
        unsigned other = n + dice_below(dice, 64 - n);
        cues[n] = all[other];
        all[other] = all[n];
    }
}
