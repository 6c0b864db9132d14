/* The second reader's step, feed and finish. Functions, papers and slices as in lent.h. */
#ifndef SECOND_READER_H
#define SECOND_READER_H

#include "lent.h"

/* SECOND_OK, or the number of the first rule that fails; then nothing lent changes. */
uint8_t second_step(struct second_state *state, struct second_report *report, SECOND_BUFFERS,
                    const uint8_t *record, size_t length);

/* SECOND_OK, or 1; then nothing lent changes. */
uint8_t second_feed(struct second_state *state, struct second_fed *fed, SECOND_BUFFERS, const uint8_t *bytes,
                    size_t length);
uint8_t second_finish(struct second_state *state, struct second_closed *closed, SECOND_BUFFERS);

#endif
