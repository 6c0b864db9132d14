/* The second reader's listing: 01, "The listing, whole", and 02's request 2 of snapshots. */
#include "listing.h"

#include "base/text.h"
#include "bursts.h"
#include "reader.h"
#include "record.h"

/* ---- what was closed -------------------------------------------------- */

static void print_line(const char *kind, uint64_t first, uint64_t frames, uint64_t cells)
{
    print_text(kind);
    print_text(" ");
    print_number(first);
    print_text(" ");
    print_number(frames);
    print_text(" ");
    print_number(cells);
    print_text("\n");
}

/* "A major frame's first is 16 x its number, its frames the number of slots held,
 * its cells 54 per MAG slot." */
static void print_major(const struct second_major *closed)
{
    struct major_frame major = second_read_major(closed);
    uint64_t samples = 0;
    for (size_t slot = 0; slot < SECOND_SLOTS; slot++)
        if (major.mag[slot])
            samples += SECOND_SAMPLES;
    print_line("major", SECOND_SLOTS * major.number, SECOND_HELD(&major), samples);
}

/* Each frame or packet held fills as many cells as it has bytes. */
static void print_held(const char *kind, uint64_t first_count, uint64_t held, uint64_t bytes)
{
    uint64_t frames = 0;
    for (; held != 0; held /= 2)
        frames += held % 2;
    print_line(kind, first_count, frames, bytes * frames);
}

/* "the listing says snap, 82 cells a packet" (02, request 2). */
static void print_snapshot(const struct second_closed_snapshot *closed)
{
    if (closed->closed)
        print_held("snap", closed->first, closed->held, SECOND_BURST);
}

/* "One record may close both; the major frame is reported first." Of snapshots a frame "can close
 * two, reported last". */
static void print_closed(const struct second_closed *closed)
{
    if (closed->major_closed)
        print_major(&closed->major);
    if (closed->accumulation_closed)
        print_held("accum", closed->accumulation_first, closed->accumulation_held, SECOND_SCIENCE);
    print_snapshot(&closed->first_snapshot);
    print_snapshot(&closed->second_snapshot);
}

/* ---- what was refused ------------------------------------------------- */

static void tell_refusal(uint64_t record, uint8_t refusal)
{
    uint8_t words[SECOND_WORDS];
    second_refusal_words(refusal, words, sizeof words);
    error_text("record ");
    error_number(record);
    error_text(" at byte ");
    error_number(SECOND_RECORD * record);
    error_text(": refused with ");
    error_number(refusal);
    error_text(": ");
    error_text((const char *)words);
    error_text("\n");
}

/* ---- the listing ------------------------------------------------------ */

/* What the reader is lent beside what a call tells. */
#define LENT(listing)                                                                                       \
    (listing)->open_cells, SECOND_CELLS, (listing)->finished_cells, SECOND_CELLS, (listing)->open_samples,  \
        SECOND_FRAME, (listing)->finished_samples, SECOND_FRAME, (listing)->open_snapshot, SECOND_SNAPSHOT, \
        (listing)->first_snapshot, SECOND_SNAPSHOT, (listing)->second_snapshot, SECOND_SNAPSHOT

/* "The fresh state is all 0." */
void second_listing_begin(struct second_listing *listing, bool telling)
{
    *listing = (struct second_listing){.telling = telling};
    print_text("kind first frames cells\n");
}

/* "A refused record prints no line of its own; the last line counts them." */
void second_listing_record(struct second_listing *listing, const uint8_t *record, size_t length)
{
    struct second_report report = {0};
    uint8_t refusal = second_step(&listing->state, &report, LENT(listing), record, length);
    if (refusal == SECOND_OK)
        print_closed(&report.closed);
    else if (listing->telling)
        tell_refusal(listing->records, refusal);
    listing->refused += refusal != SECOND_OK;
    listing->records++;
}

void second_listing_end(struct second_listing *listing)
{
    struct second_closed closed = {0};
    if (second_finish(&listing->state, &closed, LENT(listing)) != SECOND_OK)
        fail(1, "the second reader refuses its own state");
    print_closed(&closed);
    print_text("refused ");
    print_number(listing->refused);
    print_text("\n");
}
