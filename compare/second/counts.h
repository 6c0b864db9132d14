/* The second reader's counts and angles. Functions and papers as in lent.h. */
#ifndef SECOND_COUNTS_H
#define SECOND_COUNTS_H

#include "lent.h"

/* SECOND_OK, or an answer that gives no value; then the numbers lent stay as found. */
uint8_t second_count_range(uint8_t code, uint8_t divided_by, uint64_t *low, uint64_t *high);
uint8_t second_count_sum(uint64_t low_a, uint64_t high_a, uint64_t low_b, uint64_t high_b, uint64_t *low,
                         uint64_t *high);

/* The angle 0 to 87, or SECOND_NO_SUCH_BIN. */
uint8_t second_angle(size_t anode, size_t phase);

#endif
