#ifndef BRUTE_H
#define BRUTE_H

#include <stddef.h>
#include <stdint.h>

/*
 * The report worked out by nothing but the definitions, every order tried in turn. It answers 0
 * for a book of more than 200 entries or with more than most committed cues (most is at most 8),
 * since that would take too long.
 */
size_t brute_report(const uint8_t *sheet, size_t sheet_len, uint8_t *space, size_t space_len,
                    unsigned most);

#endif
