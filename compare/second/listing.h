/* The second reader's listing (01, "The listing, whole"): records in, lines of
 * standard output out, through the buffers of text.h. */
#ifndef SECOND_LISTING_H
#define SECOND_LISTING_H

#include "electrons.h"
#include "snapshot.h"
#include "state.h"

/* A listing under way: what the reader is lent from call to call, and what is
 * counted. */
struct second_listing {
    bool telling;     /* of each refused record, on standard error */
    uint64_t records; /* so far, accepted and refused */
    uint64_t refused;
    struct second_state state;
    uint8_t open_cells[SECOND_CELLS];
    uint8_t finished_cells[SECOND_CELLS];
    int16_t open_samples[SECOND_FRAME];
    int16_t finished_samples[SECOND_FRAME];
    uint8_t open_snapshot[SECOND_SNAPSHOT];
    uint8_t first_snapshot[SECOND_SNAPSHOT];
    uint8_t second_snapshot[SECOND_SNAPSHOT];
};

/* The first line; then the lines of each record, the last one maybe short; then
 * those of what is still open, and the last line. */
void second_listing_begin(struct second_listing *listing, bool telling);
void second_listing_record(struct second_listing *listing, const uint8_t *record, size_t length);
void second_listing_end(struct second_listing *listing);

#endif
