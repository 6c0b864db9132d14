/* Laying in C, for the benchmark: lpmag_lay_electrons of include/lpmag.h, as one
 * would write it for speed. */
#ifndef LAYING_C_H
#define LAYING_C_H

#include <stddef.h>
#include <stdint.h>

uint8_t laying_c(uint8_t code, const uint8_t *restrict science, size_t length, uint8_t *restrict cells,
                 size_t cells_length);

#endif
