#ifndef COMPARE_H
#define COMPARE_H

#include <stddef.h>
#include <stdint.h>

/*
 * Says in words how two reports on the same sheet differ, or answers null where they agree. Which
 * cycle is shown is free, so a cycle line is held to the definition in both reports, also where
 * the two are the same; everything else must agree byte for byte.
 */
const char *compare_reports(const uint8_t *sheet, size_t sheet_len, const uint8_t *one,
                            size_t one_len, const uint8_t *two, size_t two_len);

#endif
