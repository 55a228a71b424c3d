#ifndef REFERENCE_H
#define REFERENCE_H

#include <stddef.h>
#include <stdint.h>

/* The same report as cue_report gives (include/cue_report.h), written in plain C without proof.
   Only the choice of a cycle may differ. */
size_t ref_report(const uint8_t *sheet, size_t sheet_len, uint8_t *space, size_t space_len);

#endif
