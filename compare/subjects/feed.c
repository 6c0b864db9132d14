/* Feed: rows of every length, records refused at every place of a row, and streams of
 * anything in parts of any length. */
#include "driver/calls.h"
#include "driver/states.h"
#include "driver/streams.h"
#include "subjects.h"

#include <system.h>

/* ---- lengths ---------------------------------------------------------- */

/* So many records from a slot on, of one accumulation and of one snapshot: of those in one major
 * frame none has anything to tell. Often it is the last of the turn. */
static void make_quiet(struct random *random, struct row *row, uint32_t slot, uint32_t records)
{
    struct input input;
    uint64_t last = ROUND / SLOTS - 1;
    uint64_t first = SLOTS * (random_once_in(random, 4) ? last : random_to(random, last)) + slot;
    uint8_t type = (uint8_t)random_below(random, TYPES - records);
    uint8_t packet = 36;
    row_clear(row);
    for (uint32_t i = 0; i < records; i++) {
        if (packet > 54 || random_once_in(random, 2)) {
            input_make(random, &input, first + i, random_once_in(random, 4) ? 63 : type++);
        } else if (random_once_in(random, 2)) {
            input_make_coded(random, &input, first + i, packet++, 0);
        } else {
            input_make_coded(random, &input, first + i, TOP_BIT | packet, (uint8_t)(TOP_BIT | (packet + 1)));
            packet += 2;
        }
        row_add(row, &input, LPMAG_OK);
    }
}

static void compare_lengths(struct drive *drive)
{
    static struct reader reader;
    static struct row row;
    struct random *random = &drive->random;
    begin(drive, "feed with every length up to three records and a byte");
    for (size_t length = 0; length <= 3 * LPMAG_RECORD + 1; length++)
        for (unsigned i = 0; i < 4; i++) {
            struct question question = {FEED, NULL, 0, {{"length", length}}};
            reader_make(random, &reader, &fresh);
            make_quiet(random, &row, random_below(random, SLOTS - 4), 4);
            expect_answer(drive, &question, compare_feed(drive, &reader, &row, 0, length),
                          length / LPMAG_RECORD);
        }
}

/* As many records as can be taken at once: every slot of a major frame, with nothing to
 * tell, and the first of the next, which closes it. */
static void compare_longest(struct drive *drive)
{
    static struct reader reader;
    static struct row row;
    struct random *random = &drive->random;
    struct question question = {FEED, NULL, 0, {{NULL, 0}}};
    begin(drive, "feed with more records than can be taken at once");
    for (unsigned i = 0; i < 100; i++) {
        make_quiet(random, &row, 0, SLOTS + 4);
        reader_make(random, &reader, &fresh);
        expect_answer(drive, &question, compare_feed(drive, &reader, &row, 0, row_left(&row, 0)), SLOTS + 1);
    }
}

/* ---- refusals --------------------------------------------------------- */

/* Feeds all of a row, as much at once as feed takes. */
static void compare_row(struct drive *drive, struct reader *reader, const struct row *row)
{
    for (size_t taken = 0; taken < row->count;)
        taken += compare_feed(drive, reader, row, taken, row_left(row, taken));
}

/* The count of a record that is refused with that number if all else about it is right, or of
 * one that is accepted. */
static uint64_t count_for(struct random *random, unsigned rule, uint64_t last)
{
    return rule == 12 ? stream_late(random, last) : rule == 14 ? stream_past(random, last) : last + 1;
}

/* Good records, so many of them before one that breaks a rule from 3 on. */
static void compare_refused_at(struct drive *drive, unsigned rule, uint32_t form, unsigned place)
{
    static struct reader reader;
    static struct row row;
    struct random *random = &drive->random;
    struct lpmag_state state;
    struct input input;
    do
        state = any_good_state(random);
    while (state.last > COUNTS - 8 || (rule == 14 && !stream_can_pass(state.last)));

    uint64_t last = state.last;
    row_clear(&row);
    for (unsigned i = 0; i < place + 3; i++) {
        uint8_t type = random_once_in(random, 4) ? (uint8_t)random_below(random, TYPES) : other_type(random);
        if (i == place) {
            input_make(random, &input, count_for(random, rule, last), type);
            if (rule <= GENERATE_LAST_RULE)
                spoil_form(random, input.record, rule, form);
            row_add(&row, &input, (uint8_t)rule);
        } else {
            input_make(random, &input, ++last, type);
            row_add(&row, &input, LPMAG_OK);
        }
    }
    row_end(random, &row, random_below(random, LPMAG_RECORD));
    reader_make(random, &reader, &state);
    compare_row(drive, &reader, &row);
}

/* Rules 12 and 14 are broken by any of many counts, about as often as others by their forms; 13
 * is no rule and has none. */
static uint32_t forms_of(unsigned rule)
{
    return rule == 12 || rule == 14 ? 8 : spoil_forms(rule);
}

static void compare_refused(struct drive *drive)
{
    begin(drive, "feed with a record that breaks one rule, in each form, at every place");
    for (unsigned rule = GENERATE_FIRST_RULE + 1; rule < REFUSALS; rule++)
        for (uint32_t form = 0; form < forms_of(rule); form++)
            for (unsigned place = 0; place < 5; place++)
                for (unsigned i = 0; i < 4; i++)
                    compare_refused_at(drive, rule, form, place);
}

/* ---- streams of anything ---------------------------------------------- */

static void make_stream(struct random *random, struct row *row)
{
    struct input input;
    uint64_t count = stream_first(random);
    uint64_t last = COUNTS; /* accepted; none so far */
    struct lasts lasts = {0, 0};
    row_clear(row);
    for (unsigned i = 0; i < 300; i++) {
        if (last < COUNTS && random_once_in(random, 16)) {
            stream_input(random, &input, stream_late(random, last), lasts);
            row_add(row, &input, 12);
            continue;
        }
        stream_input(random, &input, count, lasts);
        if (random_once_in(random, 16)) {
            unsigned rule = random_between(random, GENERATE_FIRST_RULE + 1, GENERATE_LAST_RULE);
            input_spoil(random, &input, rule);
            row_add(row, &input, (uint8_t)rule);
            continue;
        }
        row_add(row, &input, LPMAG_OK);
        last = count;
        lasts_take(&lasts, &input);
        count += stream_ahead(random);
    }
    row_end(random, row, random_below(random, LPMAG_RECORD));
}

/* What is left at the end, shorter than a record: nothing is taken of it, and a step
 * refuses it with 2. */
static void compare_tail(struct drive *drive, struct reader *reader, const struct row *row)
{
    struct input input = row->inputs[row->count - 1];
    struct question question = {FEED, NULL, 0, {{"tail", row->tail}}};
    expect_answer(drive, &question, compare_feed(drive, reader, row, row->count, row->tail), 0);
    memcpy(input.record, row->bytes + LPMAG_RECORD * row->count, row->tail);
    input.length = row->tail;
    compare_step(drive, reader, &input, 2);
}

/* Steps and finishes may come between feeds. */
static void compare_stream(struct drive *drive)
{
    static struct reader reader;
    static struct row row;
    struct random *random = &drive->random;
    make_stream(random, &row);
    reader_make(random, &reader, &fresh);
    for (size_t taken = 0; taken < row.count;) {
        if (random_once_in(random, 16)) {
            compare_step(drive, &reader, &row.inputs[taken], row.answers[taken]);
            taken++;
        } else {
            taken += compare_feed(drive, &reader, &row, taken, row_part(random, &row, taken));
        }
        if (random_once_in(random, 32))
            compare_finish(drive, &reader, LPMAG_OK);
    }
    compare_tail(drive, &reader, &row);
    compare_finish(drive, &reader, LPMAG_OK);
}

void drive_feed(struct drive *drive)
{
    compare_lengths(drive);
    compare_longest(drive);
    compare_refused(drive);
    begin(drive,
          "feed on streams of any types and counts, in parts of any length, steps and finishes between");
    for (unsigned i = 0; i < 250; i++)
        compare_stream(drive);
}
