/* The second reader's questions about a finished major frame. Functions, papers and slices as in
 * lent.h. */
#ifndef SECOND_MAJOR_H
#define SECOND_MAJOR_H

#include "lent.h"

/* SECOND_OK, SECOND_NO_SUCH_PLACE or SECOND_ABSENT; unless SECOND_OK, the number lent stays as
 * found. */
uint8_t second_major_word(const struct second_major *major, size_t slot, uint16_t *word);
uint8_t second_major_sample(const struct second_major *major, const int16_t *samples, size_t samples_length,
                            size_t slot, size_t number, int16_t *sample);
uint8_t second_major_field(const struct second_major *major, const int16_t *samples, size_t samples_length,
                           size_t slot, size_t number, float *field);

#endif
