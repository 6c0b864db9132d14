/* Step and feed in C, for the benchmark: lpmag_step and lpmag_feed of include/lpmag.h,
 * as one would write them for speed, over the same structs. */
#ifndef STEP_C_H
#define STEP_C_H

#include "../include/lpmag.h"

uint8_t step_c(struct lpmag_state *restrict state, struct lpmag_report *restrict report,
               uint8_t *restrict open_cells, size_t open_cells_length, uint8_t *restrict finished_cells,
               size_t finished_cells_length, int16_t *restrict open_samples, size_t open_samples_length,
               int16_t *restrict finished_samples, size_t finished_samples_length,
               uint8_t *restrict open_snapshot, size_t open_snapshot_length, uint8_t *restrict first_snapshot,
               size_t first_snapshot_length, uint8_t *restrict second_snapshot, size_t second_snapshot_length,
               const uint8_t *restrict record, size_t length);

uint8_t feed_c(struct lpmag_state *restrict state, struct lpmag_fed *restrict fed,
               uint8_t *restrict open_cells, size_t open_cells_length, uint8_t *restrict finished_cells,
               size_t finished_cells_length, int16_t *restrict open_samples, size_t open_samples_length,
               int16_t *restrict finished_samples, size_t finished_samples_length,
               uint8_t *restrict open_snapshot, size_t open_snapshot_length, uint8_t *restrict first_snapshot,
               size_t first_snapshot_length, uint8_t *restrict second_snapshot, size_t second_snapshot_length,
               const uint8_t *restrict bytes, size_t length);

#endif
