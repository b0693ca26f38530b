/* The sample job of the repository: the bytes of crates/rangecheck/stdin. */
#ifndef SAMPLE_H
#define SAMPLE_H

#include <stdint.h>

/* The hump 800x - 800x^2 in an unsigned register of 8 bits, as in docs/RECORDS.md. */
#define HUMP 0x15, 0x00, 0x00, 0x00, 0x00, 0x00, 0x00, 0x00, 0x00, 0x03, 0x20, 0xFF, 0xFF, 0xFC, 0xE0

static const uint8_t sample_record[] = {HUMP};

/* The length of the record, the record, and five calls. */
static const uint8_t sample_job[] = {0, sizeof sample_record, HUMP, 'H', 0, 1, 'R', 0, 0, 'C', 0, 0, 'C', 0, 0, 'C', 0,
                                     0};

#endif
