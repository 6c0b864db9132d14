/* The layer of include/lpmag_reader.h: what it lends to the reader's functions, and where
 * it keeps what they tell. */
#include "driver/calls.h"
#include "driver/streams.h"
#include "second/reader.h"
#include "subjects.h"

#include "lpmag_reader.h"

/* All of both readers, after the same calls. */
static void same_layers(struct drive *drive, const struct question *question, uint8_t first, uint8_t second,
                        const struct lpmag_reader *layer, const struct lpmag_reader *expected)
{
    same_answer(drive, question, first, second);
    expect_bytes(drive, question, "the layer's reader isn't what it has to be", layer, expected,
                 sizeof *expected);
}

/* What the layer lends to one of the reader's functions, by which the second is called. */
#define LENT(reader, told)                                                                \
    (void *)&(reader)->state, (void *)&(reader)->told, (reader)->open_cells, LPMAG_CELLS, \
        (reader)->finished_cells, LPMAG_CELLS, (reader)->open_samples, LPMAG_FRAME,       \
        (reader)->finished_samples, LPMAG_FRAME, (reader)->open_snapshot, LPMAG_SNAPSHOT, \
        (reader)->first_snapshot, LPMAG_SNAPSHOT, (reader)->second_snapshot, LPMAG_SNAPSHOT

/* Any bytes are a record to refuse; they come between good ones, fed and stepped. */
static void compare_calls(struct drive *drive, struct lpmag_reader *layer, struct lpmag_reader *expected)
{
    struct random *random = &drive->random;
    uint64_t count = random_below(random, 1000);
    for (unsigned i = 0; i < 300; i++, count += stream_ahead(random)) {
        struct input input;
        stream_input(random, &input, count, lasts_of(&expected->state));
        if (random_once_in(random, 8))
            random_fill(random, input.record, input.length);

        struct question question = {STEP, input.record, input.length, {{NULL, 0}}};
        if (random_once_in(random, 2)) {
            same_layers(drive, &question, lpmag_reader_step(layer, input.record, input.length),
                        second_step(LENT(expected, report), input.record, input.length), layer, expected);
        } else {
            question.function = FEED;
            same_layers(drive, &question, lpmag_reader_feed(layer, input.record, input.length),
                        second_feed(LENT(expected, fed), input.record, input.length), layer, expected);
        }
        if (random_once_in(random, 50)) {
            question = (struct question){FINISH, NULL, 0, {{NULL, 0}}};
            same_layers(drive, &question, lpmag_reader_finish(layer), second_finish(LENT(expected, closed)),
                        layer, expected);
        }
    }
}

void drive_layer(struct drive *drive)
{
    static struct lpmag_reader layer, expected;
    struct question question = {STEP, NULL, 0, {{NULL, 0}}};
    begin(drive, "the layer of lpmag_reader.h");
    for (unsigned i = 0; i < 20; i++) {
        random_fill(&drive->random, (uint8_t *)&layer, sizeof layer);
        memset(&expected, 0, sizeof expected);
        lpmag_reader_init(&layer);
        expect_bytes(drive, &question, "a fresh reader of the layer isn't all 0", &layer, &expected,
                     sizeof expected);
        compare_calls(drive, &layer, &expected);
    }
}
