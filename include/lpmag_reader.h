/* A layer for everyday use over lpmag.h, and nothing else: the reader with all that it
 * is lent in one struct. lpmag_reader_init makes a fresh one; each other function calls
 * the one of lpmag.h that has its name, and what is said there holds here.
 *
 *     static struct lpmag_reader reader;       // 14,928 bytes
 *     lpmag_reader_init(&reader);
 *     while ((length = fread(record, 1, LPMAG_RECORD, file)) > 0)
 *         if (lpmag_reader_step(&reader, record, length) == LPMAG_OK)
 *             look at reader.report, and at what it says was closed
 *     lpmag_reader_finish(&reader);            // reader.closed
 */
#ifndef LPMAG_READER_H
#define LPMAG_READER_H

#include <string.h>

#include "lpmag.h"

struct lpmag_reader {
    struct lpmag_state state;
    struct lpmag_report report; /* of the last record that lpmag_reader_step accepted; feed leaves it */
    struct lpmag_fed fed;       /* of the last lpmag_reader_feed */
    struct lpmag_closed closed; /* of the last lpmag_reader_finish */
    uint8_t open_cells[LPMAG_CELLS];
    uint8_t finished_cells[LPMAG_CELLS]; /* the accumulation closed last */
    int16_t open_samples[LPMAG_FRAME];
    int16_t finished_samples[LPMAG_FRAME]; /* the major frame closed last */
    uint8_t open_snapshot[LPMAG_SNAPSHOT];
    uint8_t first_snapshot[LPMAG_SNAPSHOT];  /* the snapshot that a call closed, the first or only one */
    uint8_t second_snapshot[LPMAG_SNAPSHOT]; /* and the second */
};

/* A fresh reader, all 0. */
static inline void lpmag_reader_init(struct lpmag_reader *reader)
{
    memset(reader, 0, sizeof *reader);
}

/* One record: lpmag_step. */
static inline uint8_t lpmag_reader_step(struct lpmag_reader *reader, const uint8_t *record, size_t length)
{
    return lpmag_step(&reader->state, &reader->report, reader->open_cells, LPMAG_CELLS, reader->finished_cells,
                      LPMAG_CELLS, reader->open_samples, LPMAG_FRAME, reader->finished_samples, LPMAG_FRAME,
                      reader->open_snapshot, LPMAG_SNAPSHOT, reader->first_snapshot, LPMAG_SNAPSHOT,
                      reader->second_snapshot, LPMAG_SNAPSHOT, record, length);
}

/* Whole records from the front of the bytes, until one has something to tell: lpmag_feed. */
static inline uint8_t lpmag_reader_feed(struct lpmag_reader *reader, const uint8_t *bytes, size_t length)
{
    return lpmag_feed(&reader->state, &reader->fed, reader->open_cells, LPMAG_CELLS, reader->finished_cells,
                      LPMAG_CELLS, reader->open_samples, LPMAG_FRAME, reader->finished_samples, LPMAG_FRAME,
                      reader->open_snapshot, LPMAG_SNAPSHOT, reader->first_snapshot, LPMAG_SNAPSHOT,
                      reader->second_snapshot, LPMAG_SNAPSHOT, bytes, length);
}

/* Closes what is open: lpmag_finish. */
static inline uint8_t lpmag_reader_finish(struct lpmag_reader *reader)
{
    return lpmag_finish(&reader->state, &reader->closed, reader->open_cells, LPMAG_CELLS, reader->finished_cells,
                        LPMAG_CELLS, reader->open_samples, LPMAG_FRAME, reader->finished_samples, LPMAG_FRAME,
                        reader->open_snapshot, LPMAG_SNAPSHOT, reader->first_snapshot, LPMAG_SNAPSHOT,
                        reader->second_snapshot, LPMAG_SNAPSHOT);
}

#endif
