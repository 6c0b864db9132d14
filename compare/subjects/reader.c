/* The reader on records in any order of types and counts: the printed examples,
 * both edges of the joining rule, and streams of anything. */
#include "driver/calls.h"
#include "driver/streams.h"
#include "subjects.h"

/* ---- the printed examples --------------------------------------------- */

/* Steps with a good record; answers what became of its frame. */
static uint8_t step_with(struct drive *drive, struct reader *reader, uint64_t count, uint8_t type)
{
    struct input input;
    input_make(&drive->random, &input, count, type);
    compare_step(drive, reader, &input, LPMAG_OK);
    return reader_report(reader).gap;
}

static void expect_fate(struct drive *drive, uint64_t count, uint8_t type, uint8_t fate, uint8_t expected)
{
    struct question question = {STEP, NULL, 0, {{"count", count}, {"type", type}}};
    expect_answer(drive, &question, fate, expected);
}

/* Type 5 at count 100, so many other frames right after it, and one frame more. */
static void compare_after_type_5(struct drive *drive, unsigned others, uint64_t count, uint8_t type,
                                 uint8_t expected)
{
    static struct reader reader;
    reader_make(&drive->random, &reader, &fresh);
    step_with(drive, &reader, 100, 5);
    for (unsigned i = 0; i < others; i++)
        step_with(drive, &reader, 101 + i, other_type(&drive->random));
    expect_fate(drive, count, type, step_with(drive, &reader, count, type), expected);
}

/* 01, "Sixteen examples to be proved" and "Mistakes the old reader made". */
static void compare_joining_examples(struct drive *drive)
{
    begin(drive, "the printed examples of joining");
    compare_after_type_5(drive, 0, 101, 6, LPMAG_JOINS);
    compare_after_type_5(drive, 0, 136, 6, LPMAG_JOINS);
    compare_after_type_5(drive, 0, 137, 6, LPMAG_OPENS);
    compare_after_type_5(drive, 0, 101, 8, LPMAG_OPENS);
    compare_after_type_5(drive, 0, 147, 6, LPMAG_OPENS);  /* a dropout of 46 counts */
    compare_after_type_5(drive, 46, 147, 6, LPMAG_JOINS); /* the same counts filled */
}

/* The numbers of a line of the listing. */
static void expect_closed(struct drive *drive, const struct lpmag_closed *closed, uint64_t major,
                          uint64_t first)
{
    struct question question = {STEP, NULL, 0, {{NULL, 0}}};
    expect_answer(drive, &question, closed->major_closed & closed->accumulation_closed, 1);
    expect_answer(drive, &question, 16 * closed->major.number, major);
    expect_answer(drive, &question, ones(closed->major.slots), 1);
    expect_answer(drive, &question, 54 * ones(closed->major.mag_slots), 54);
    expect_answer(drive, &question, closed->accumulation_first, first);
    expect_answer(drive, &question, 83 * ones(closed->accumulation_held), 83);
}

/* 01, "The listing, whole": counts 32 and 48, both type 0. */
static void compare_listing_example(struct drive *drive)
{
    static struct reader reader;
    begin(drive, "the printed example of the listing");
    reader_make(&drive->random, &reader, &fresh);
    step_with(drive, &reader, 32, 0);
    step_with(drive, &reader, 48, 0);
    struct lpmag_closed closed = reader_report(&reader).closed;
    expect_closed(drive, &closed, 32, 32);
    compare_finish(drive, &reader, LPMAG_OK);
    closed = reader_closed(&reader);
    expect_closed(drive, &closed, 48, 48);
}

/* ---- the edges of the joining rule ------------------------------------ */

/* A frame of type t, then one of type u with g counts not accepted between them
 * and so many other frames anywhere among these. */
static void compare_gap(struct drive *drive, uint8_t t, uint8_t u, uint32_t g, uint32_t others,
                        uint8_t expected)
{
    static struct reader reader;
    uint32_t between = g + others;
    uint64_t turned = ROUND - 1 - random_below(&drive->random, between + 1); /* u is in the next turn */
    uint64_t count = random_once_in(&drive->random, 4)   ? turned
                     : random_once_in(&drive->random, 4) ? 0
                                                         : random_to(&drive->random, ROUND - 1);
    reader_make(&drive->random, &reader, &fresh);
    step_with(drive, &reader, count, t);
    for (; between > 0; between--) {
        count++;
        if (random_below(&drive->random, between) < others) {
            step_with(drive, &reader, count, other_type(&drive->random));
            others--;
        }
    }
    expect_fate(drive, count + 1, u, step_with(drive, &reader, count + 1, u), expected);
    compare_finish(drive, &reader, LPMAG_OK);
}

static void compare_gaps(struct drive *drive)
{
    static const uint32_t others[] = {0, 1, 2, 40};
    enum { OTHERS = sizeof others / sizeof others[0] };
    begin(drive, "every two types at both edges of the joining rule, other frames between them or none");
    for (uint8_t t = 0; t < TYPES; t++)
        for (uint8_t u = 0; u < TYPES; u++)
            for (size_t i = 0; i < OTHERS; i++) {
                if (u <= t) { /* at the edges of the next such type, and with none lost */
                    uint32_t next = 36u + u - t;
                    const uint32_t gaps[] = {0, next - 1, 34 + next, random_below(&drive->random, 80)};
                    for (size_t j = 0; j < 4; j++)
                        compare_gap(drive, t, u, gaps[j], others[i], LPMAG_OPENS);
                    continue;
                }
                uint32_t rise = (uint32_t)u - t;
                if (rise >= 2)
                    compare_gap(drive, t, u, rise - 2, others[i], LPMAG_OPENS);
                compare_gap(drive, t, u, rise - 1, others[i], LPMAG_JOINS);
                compare_gap(drive, t, u, 34 + rise, others[i], LPMAG_JOINS);
                compare_gap(drive, t, u, 35 + rise, others[i], LPMAG_OPENS);
            }
}

/* A type that rises by one, with g so many whole turns: none joins, though 24 bits tell of no
 * loss. Other frames come on the way, since no record is later by as much. */
static void compare_turns_lost(struct drive *drive)
{
    static struct reader reader;
    begin(drive, "the next type, whole turns after the last");
    for (uint64_t turns = 1; turns <= 40; turns++) {
        uint64_t first = stream_first(&drive->random);
        uint64_t last = first;
        uint64_t next = first + 1 + turns * ROUND;
        reader_make(&drive->random, &reader, &fresh);
        step_with(drive, &reader, first, 5);
        for (; next - last > AHEAD; next++) {
            last += AHEAD;
            step_with(drive, &reader, last, other_type(&drive->random));
        }
        expect_fate(drive, next, 6, step_with(drive, &reader, next, 6), LPMAG_OPENS);
    }
}

/* ---- streams of anything ---------------------------------------------- */

static void compare_stream(struct drive *drive)
{
    static struct reader reader;
    struct random *random = &drive->random;
    struct input input;
    uint64_t count = stream_first(random);
    reader_make(random, &reader, &fresh);
    if (random_once_in(random, 8))
        compare_finish(drive, &reader, LPMAG_OK);
    for (unsigned i = 0; i < 400; i++) {
        struct lasts lasts = lasts_of(&reader.state);
        if (reader.state.any && random_once_in(random, 16)) {
            stream_input(random, &input, stream_late(random, reader.state.last), lasts);
            compare_step(drive, &reader, &input, 12);
            continue;
        }
        stream_input(random, &input, count, lasts);
        if (random_once_in(random, 16)) {
            unsigned rule = random_between(random, GENERATE_FIRST_RULE, GENERATE_LAST_RULE);
            input_spoil(random, &input, rule);
            compare_step(drive, &reader, &input, (uint8_t)rule);
            continue;
        }
        compare_step(drive, &reader, &input, LPMAG_OK);
        count += stream_ahead(random);
        if (random_once_in(random, 100)) {
            compare_finish(drive, &reader, LPMAG_OK);
            if (random_once_in(random, 4))
                compare_finish(drive, &reader, LPMAG_OK);
        }
    }
    compare_finish(drive, &reader, LPMAG_OK);
    compare_finish(drive, &reader, LPMAG_OK);
}

void drive_reader(struct drive *drive)
{
    compare_joining_examples(drive);
    compare_listing_example(drive);
    compare_gaps(drive);
    compare_turns_lost(drive);
    begin(drive, "streams of any types, with counts left out, repeated and late, and finish anywhere");
    for (unsigned i = 0; i < 500; i++)
        compare_stream(drive);
}
