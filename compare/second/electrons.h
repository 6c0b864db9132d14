/* The second reader's accumulation and the questions about it. Functions, papers and slices as in
 * lent.h. */
#ifndef SECOND_ELECTRONS_H
#define SECOND_ELECTRONS_H

#include "lent.h"

#include <stdbool.h>

/* Sizes and places, in bytes. */
#define SECOND_SCIENCE 83    /* 000 section 2.3 */
#define SECOND_SCIENCE_AT 85 /* 000 section 2.1.1 */
#define SECOND_CELLS 2997    /* 01, "ER cells": 2,988 cells and 9 bytes of bit pairs */

/* The types of real-time frames (000 section 2.3). */
enum { SECOND_TYPES = 36 };

/* True when the Format 1 table, as it is written here, gives 83 cells to each
 * type and each of the 2,988 cells once (01, "ER cells"). Nothing below means
 * anything otherwise. */
bool second_format_whole(void);

/* SECOND_OK, or SECOND_NO_SUCH_PLACE; then the cells stay as found. */
uint8_t second_lay_electrons(uint8_t code, const uint8_t *science, size_t length, uint8_t *cells,
                             size_t cells_length);

/* How many samples an energy bin has, or SECOND_NO_SUCH_BIN. */
uint8_t second_bin_samples(size_t bin);

/* The questions: SECOND_OK, or an answer that gives no value; then the numbers lent
 * stay as found. `held` has the bit of weight 2^u for a held type u. */
uint8_t second_cell(const uint8_t *cells, size_t length, uint64_t held, size_t cell, uint8_t *byte);
uint8_t second_electron_sample(const uint8_t *cells, size_t length, uint64_t held, size_t bin, size_t number,
                               size_t angle, uint64_t *low, uint64_t *high);
uint8_t second_three_d(const uint8_t *cells, size_t length, uint64_t held, size_t step, size_t angle,
                       uint64_t *low, uint64_t *high);
uint8_t second_total(const uint8_t *cells, size_t length, uint64_t held, uint64_t *low, uint64_t *high);
uint8_t second_rate(const uint8_t *cells, size_t length, uint64_t held, uint64_t *low, uint64_t *high);

#endif
