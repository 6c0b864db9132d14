/* Where the electrons stand in an accumulation, as the driver expects it by the rules of 01 in their
 * shortest form. */
#ifndef ELECTRONS_H
#define ELECTRONS_H

#include "records.h"

enum { CELLS = 2988, BINS = 15, STEPS = 15, SAMPLE_ANGLES = 16, STEP_ANGLES = 88 };
enum { MOST_SAMPLES = 32, PAIRS = CELLS }; /* the types' bit pairs start after the cells */

/* Where things stand in an accumulation, and which frame carries them. */
struct layout {
    uint8_t samples[BINS];                /* how many a bin has */
    uint16_t sample[BINS][MOST_SAMPLES];  /* the first cell of each */
    uint16_t place[TYPES][LPMAG_SCIENCE]; /* the cell of each byte of science */
    uint8_t carrier[CELLS];               /* the type whose frame carries the cell */
};

const struct layout *layout(void);

/* What laying a real-time frame has to make of the cells. */
void lay_expected(uint8_t code, const uint8_t *science, uint8_t *cells);

#endif
