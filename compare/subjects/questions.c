/* The questions about an accumulation: the counts of a sample, of 3D, Total and
 * Rate. */
#include "driver/asked.h"
#include "second/electrons.h"
#include "subjects.h"

#include <system.h>

/* ---- one question ----------------------------------------------------- */

/* The header (000 section 2.3.1). */
enum { PRE_SCALE = 1, TOTAL_AT = 2, RATE_AT = 3 };

/* 01, "Counts": bins 6 and 9 and the cuts 10-14 never are. */
static bool may_be_scaled(size_t bin)
{
    return bin <= 5 || bin == 7 || bin == 8;
}

static bool scaled(const uint8_t *cells, size_t bin)
{
    return may_be_scaled(bin) && cells[PRE_SCALE] >> bin / 2 & 1;
}

/* No such place, then absent, then scale unknown. */
static struct expected expected_sample(const struct asked *asked, size_t bin, size_t number, size_t angle)
{
    size_t cell = NO_PLACE;
    if (bin < BINS && number < layout()->samples[bin] && angle < SAMPLE_ANGLES)
        cell = layout()->sample[bin][number] + angle;

    struct expected expected = expected_counts_at(asked, cell, 1);
    if (expected.answer != LPMAG_OK || !may_be_scaled(bin))
        return expected;
    if ((asked->held & 1) == 0)
        return (struct expected){LPMAG_SCALE_UNKNOWN, 0, 0};
    return expected_counts(asked->bytes[cell], scaled(asked->bytes, bin) ? 8 : 1);
}

static void compare_sample(struct drive *drive, const struct asked *asked, size_t bin, size_t number,
                           size_t angle)
{
    struct question question = {ELECTRON_SAMPLE,
                                asked->bytes,
                                asked->length,
                                {{"held", asked->held}, {"bin", bin}, {"number", number}, {"angle", angle}}};
    struct ranges ranges;
    ranges_make(&ranges, &drive->random);
    uint8_t first = lpmag_electron_sample(ASKED(asked), bin, number, angle, RANGE_OF(ranges.first));
    uint8_t second = second_electron_sample(ASKED(asked), bin, number, angle, RANGE_OF(ranges.second));
    compare_counts(drive, &question, &ranges, first, second, expected_sample(asked, bin, number, angle));
    if (first == LPMAG_OK)
        (scaled(asked->bytes, bin) ? drive->samples_scaled : drive->samples_plain)[bin]++;
}

static void compare_three_d(struct drive *drive, const struct asked *asked, size_t step, size_t angle)
{
    struct question question = {
        THREE_D, asked->bytes, asked->length, {{"held", asked->held}, {"step", step}, {"angle", angle}}};
    struct ranges ranges;
    ranges_make(&ranges, &drive->random);
    uint8_t first = lpmag_three_d(ASKED(asked), step, angle, RANGE_OF(ranges.first));
    uint8_t second = second_three_d(ASKED(asked), step, angle, RANGE_OF(ranges.second));
    size_t cell = step < STEPS && angle < STEP_ANGLES ? 1668 + 88 * step + angle : NO_PLACE;
    compare_counts(drive, &question, &ranges, first, second, expected_counts_at(asked, cell, 1));
}

/* A number of the header. */
typedef uint8_t header_question(const uint8_t *, size_t, uint64_t, uint64_t *, uint64_t *);

static void compare_header(struct drive *drive, const struct asked *asked, enum function function, size_t at,
                           header_question *ask_first, header_question *ask_second)
{
    struct question question = {function, asked->bytes, asked->length, {{"held", asked->held}}};
    struct ranges ranges;
    ranges_make(&ranges, &drive->random);
    uint8_t first = ask_first(ASKED(asked), RANGE_OF(ranges.first));
    uint8_t second = ask_second(ASKED(asked), RANGE_OF(ranges.second));
    compare_counts(drive, &question, &ranges, first, second, expected_counts_at(asked, at, 16));
}

static void compare_total_and_rate(struct drive *drive, const struct asked *asked)
{
    compare_header(drive, asked, TOTAL, TOTAL_AT, lpmag_total, second_total);
    compare_header(drive, asked, RATE, RATE_AT, lpmag_rate, second_rate);
}

static struct asked lend_cells(struct drive *drive, const uint8_t *made)
{
    return lend_asked(drive, &accumulation, made, LPMAG_CELLS, ALL_HELD);
}

/* ---- samples ---------------------------------------------------------- */

static void ask_every_sample(struct drive *drive, const struct asked *asked)
{
    for (size_t bin = 0; bin < BINS; bin++)
        for (size_t number = 0; number < layout()->samples[bin]; number++)
            for (size_t angle = 0; angle < SAMPLE_ANGLES; angle++)
                compare_sample(drive, asked, bin, number, angle);
}

static void compare_every_sample(struct drive *drive)
{
    begin(drive, "samples at every place, with every held mark");
    for (unsigned i = 0; i < 3; i++)
        ask_with_marks(drive, &accumulation, ELECTRON_SAMPLE, ask_every_sample);
}

static void compare_samples_past_the_end(struct drive *drive)
{
    const uint64_t marks[] = {
        0,
        ALL_HELD,
        ALL_HELD - 1, /* all but type 0 */
        random_next(&drive->random) & ALL_HELD,
        ALL_HELD | (uint64_t)1 << TYPES,
        ALL_HELD | (uint64_t)1 << 63,
    };
    static size_t bins[MOST_NUMBERS], numbers[MOST_NUMBERS], angles[MOST_NUMBERS];
    size_t bin_count = make_numbers(16, bins);
    size_t number_count = make_numbers(34, numbers);
    size_t angle_count = make_numbers(17, angles);
    uint8_t made[LPMAG_CELLS];
    begin(drive, "samples past the last bin, number or angle, and at huge ones");
    for (size_t i = 0; i < sizeof marks / sizeof marks[0]; i++) {
        struct asked asked = lend_any(drive, &accumulation, made, marks[i]);
        for (size_t bin = 0; bin < bin_count; bin++)
            for (size_t number = 0; number < number_count; number++)
                for (size_t angle = 0; angle < angle_count; angle++)
                    compare_sample(drive, &asked, bins[bin], numbers[number], angles[angle]);
        expect_unchanged(drive, ELECTRON_SAMPLE, &asked);
    }
}

/* Every code in a sample of every bin, at every pre-scale state, with and without
 * type 0. Two samples have 32 cells, so eight accumulations show all codes. */
static void compare_every_state(struct drive *drive)
{
    enum { PAIR = 2 * SAMPLE_ANGLES, ROUNDS = 256 / PAIR };
    uint8_t made[LPMAG_CELLS];
    begin(drive, "every code of every bin at every pre-scale state");
    for (unsigned state = 0; state < 256; state++)
        for (unsigned round = 0; round < ROUNDS; round++) {
            random_fill(&drive->random, made, sizeof made);
            made[PRE_SCALE] = (uint8_t)state;
            for (size_t cell = 4; cell < 1668; cell++)
                made[cell] = (uint8_t)(PAIR * round + (cell - 4) % PAIR);
            struct asked asked = lend_cells(drive, made);
            struct asked without_state = asked;
            without_state.held = ALL_HELD - 1;
            for (size_t bin = 0; bin < BINS; bin++) {
                size_t pair = random_below(&drive->random, layout()->samples[bin] / 2u);
                for (size_t i = 0; i < PAIR; i++) {
                    size_t number = 2 * pair + i / SAMPLE_ANGLES;
                    compare_sample(drive, &asked, bin, number, i % SAMPLE_ANGLES);
                    compare_sample(drive, &without_state, bin, number, i % SAMPLE_ANGLES);
                }
            }
            expect_unchanged(drive, ELECTRON_SAMPLE, &asked);
        }
}

/* 01, "Mistakes the old reader made": scaling bin 6 because bin 7's band bit is
 * set. Code 255 tells the two apart: 524,287, or 8 times as much and 7. */
static void compare_shared_bands(struct drive *drive)
{
    uint8_t made[LPMAG_CELLS];
    begin(drive, "bins that share a band's bit and are never scaled");
    memset(made, 255, sizeof made);
    struct asked asked = lend_cells(drive, made);
    for (size_t bin = 0; bin < BINS; bin++) {
        struct question question = {
            ELECTRON_SAMPLE, asked.bytes, sizeof made, {{"held", ALL_HELD}, {"bin", bin}}};
        uint64_t low, high;
        compare_sample(drive, &asked, bin, 0, 0);
        expect_answer(drive, &question,
                      lpmag_electron_sample(asked.bytes, sizeof made, ALL_HELD, bin, 0, 0, &low, &high), 0);
        expect_answer(drive, &question, high, bin == 6 || bin >= 9 ? 524287 : 8 * 524287 + 7);
    }
}

/* ---- 3D --------------------------------------------------------------- */

static void ask_every_three_d(struct drive *drive, const struct asked *asked)
{
    static size_t steps[MOST_NUMBERS], angles[MOST_NUMBERS];
    size_t step_count = make_numbers(16, steps);
    size_t angle_count = make_numbers(90, angles);
    for (size_t step = 0; step < step_count; step++)
        for (size_t angle = 0; angle < angle_count; angle++)
            compare_three_d(drive, asked, steps[step], angles[angle]);
}

static void compare_every_three_d(struct drive *drive)
{
    uint8_t made[LPMAG_CELLS];
    begin(drive, "3D at every step and angle, past the last and at huge ones, with every held mark");
    ask_with_marks(drive, &accumulation, THREE_D, ask_every_three_d);

    begin(drive, "every code at every step and angle of 3D");
    for (unsigned code = 0; code < 256; code++) {
        for (size_t cell = 0; cell < sizeof made; cell++)
            made[cell] = (uint8_t)(code + cell);
        struct asked asked = lend_cells(drive, made);
        for (size_t step = 0; step < STEPS; step++)
            for (size_t angle = 0; angle < STEP_ANGLES; angle++)
                compare_three_d(drive, &asked, step, angle);
        expect_unchanged(drive, THREE_D, &asked);
    }
}

/* ---- Total and Rate --------------------------------------------------- */

static void compare_every_total_and_rate(struct drive *drive)
{
    uint64_t marks[MOST_MARKS];
    uint8_t made[LPMAG_CELLS];
    begin(drive, "Total and Rate of every code, with every held mark");
    make_marks(&drive->random, &accumulation, marks);
    for (unsigned code = 0; code < 256; code++) {
        random_fill(&drive->random, made, sizeof made);
        made[TOTAL_AT] = (uint8_t)code;
        made[RATE_AT] = (uint8_t)(code * 7 + 3);
        struct asked asked = lend_cells(drive, made);
        for (size_t i = 0; i < accumulation.marks; i++) {
            asked.held = marks[i];
            compare_total_and_rate(drive, &asked);
        }
        expect_unchanged(drive, TOTAL, &asked);
    }
}

/* ---- sizes ------------------------------------------------------------ */

static void ask_some(struct drive *drive, const struct asked *asked)
{
    compare_total_and_rate(drive, asked);
    for (size_t i = 0; i <= BINS; i++) {
        size_t angle = random_below(&drive->random, SAMPLE_ANGLES + 1);
        compare_sample(drive, asked, i, random_below(&drive->random, 5), angle);
        angle = random_below(&drive->random, STEP_ANGLES + 1);
        compare_three_d(drive, asked, i, angle);
    }
}

static void compare_sizes(struct drive *drive)
{
    begin(drive, "the questions with accumulations of many sizes");
    ask_of_sizes(drive, &accumulation, THREE_D, ask_some);
}

void drive_questions(struct drive *drive)
{
    compare_shared_bands(drive);
    compare_every_sample(drive);
    compare_samples_past_the_end(drive);
    compare_every_state(drive);
    compare_every_three_d(drive);
    compare_every_total_and_rate(drive);
    compare_sizes(drive);
}
