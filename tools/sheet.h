#ifndef SHEET_H
#define SHEET_H

#include <stddef.h>
#include <stdint.h>

enum { SHEET_ROOM = 2200 * 16 };

struct sheet {
    size_t len;
    uint8_t bytes[SHEET_ROOM];
};

/* Adds a well-formed line; the axis is left out for c and a. Lines past the room are dropped. */
void sheet_add(struct sheet *sheet, unsigned cue, char letter, unsigned axis);

/* Random numbers that are the same on every machine for the same seed. */
struct dice {
    uint64_t state;
};

void dice_seed(struct dice *dice, uint64_t seed);
unsigned dice_below(struct dice *dice, unsigned limit); /* 0 to limit - 1 */

/* Puts count different cues of 1 to 64, in no order, into cues. */
void dice_cues(struct dice *dice, unsigned *cues, unsigned count);

#endif
