/* The reader on states made at random: ones that keep 01's list, with every kind of
 * next record; ones that break each clause of it; any bytes. */
#include "driver/calls.h"
#include "driver/states.h"
#include "driver/streams.h"
#include "subjects.h"

#include <system.h>

/* What step has to answer to a record that passes rules 2 to 11. */
static uint8_t expected_step(const struct lpmag_state *state, uint64_t count)
{
    return clauses_broken(state) != 0 ? 1 : answer_by_count(state, (uint32_t)(count % ROUND));
}

static uint8_t expected_finish(const struct lpmag_state *state)
{
    return clauses_broken(state) != 0 ? 1 : LPMAG_OK;
}

/* Steps from the state with a good record, or is fed it, in buffers full of dirt; then
 * finishes. */
static void compare_next_input(struct drive *drive, const struct lpmag_state *state, uint64_t count,
                               const struct input *input)
{
    static struct reader reader;
    reader_make(&drive->random, &reader, state);
    compare_taken(drive, &reader, input, expected_step(state, count), 8);
    if (random_once_in(&drive->random, 2))
        compare_finish(drive, &reader, expected_finish(&reader.state));
}

static void compare_next(struct drive *drive, const struct lpmag_state *state, uint64_t count, uint8_t type)
{
    struct input input;
    input_make(&drive->random, &input, count, type);
    compare_next_input(drive, state, count, &input);
}

/* A half or full burst, mostly with the packets that come next in the snapshot. */
static void compare_next_burst(struct drive *drive, const struct lpmag_state *state, uint64_t count)
{
    struct input input;
    uint8_t code, second_code;
    stream_burst(&drive->random, state->snapshot.last_type, &code, &second_code);
    input_make_coded(&drive->random, &input, count, code, second_code);
    compare_next_input(drive, state, count, &input);
}

/* ---- states that keep the list ---------------------------------------- */

/* The count nearest to the one wanted that is later than the last accepted, which isn't the
 * last of all. */
static uint64_t next_count(const struct lpmag_state *state, uint64_t wanted)
{
    uint64_t farthest = state->last + AHEAD < COUNTS ? state->last + AHEAD : COUNTS - 1;
    if (wanted <= state->last)
        return state->last + 1;
    return wanted < farthest ? wanted : farthest;
}

/* Every count at which something changes for a frame of the type: those around the
 * edges of the joining rule, the next, the last of this major frame, the first of
 * another, the last of this turn, the first of the next and the farthest. */
static void compare_next_counts(struct drive *drive, const struct lpmag_state *state, uint8_t type)
{
    const struct lpmag_accumulation *open = &state->accumulation;
    uint64_t earliest = open->last_count + open->others + (uint64_t)(type - open->last_type);
    uint64_t last_of_major = state->last | (SLOTS - 1);
    uint64_t last_of_turn = state->last | (ROUND - 1);
    const uint64_t wanted[] = {earliest - 1,      earliest,           earliest + 1,    earliest + 34,
                               earliest + 35,     earliest + 36,      state->last + 1, last_of_major,
                               last_of_major + 1, last_of_major + 16, last_of_turn,    last_of_turn + 1,
                               COUNTS - 1};
    for (size_t i = 0; i < sizeof wanted / sizeof wanted[0]; i++)
        compare_next(drive, state, next_count(state, wanted[i]), type);
}

/* Counts at the edges of what is later, and any, whatever comes of them. */
static void compare_jumps(struct drive *drive, const struct lpmag_state *state)
{
    struct random *random = &drive->random;
    const uint64_t ahead[] = {
        AHEAD - 1, AHEAD,     AHEAD + 1, AHEAD + 2, ROUND - 40,
        ROUND - 2, ROUND - 1, ROUND,     ROUND + 1, random_to(random, ROUND - 1),
    };
    for (unsigned i = 0; i < 4; i++)
        compare_next(drive, state, state->last + ahead[random_below(random, sizeof ahead / sizeof ahead[0])],
                     any_type(random));
}

static void compare_passing(struct drive *drive, bool accumulation, bool major)
{
    static struct reader reader;
    struct random *random = &drive->random;
    struct lpmag_state state = any_state(random, accumulation, major);
    drive->passing++;
    if (state.last < COUNTS - 1) {
        uint8_t above = (uint8_t)random_between(random, state.accumulation.last_type, TYPES - 1);
        compare_next_counts(drive, &state, above);
        compare_next(drive, &state, state.last + 1, any_type(random));
        compare_next(drive, &state, next_count(&state, state.last + random_below(random, 100)),
                     (uint8_t)random_between(random, 0, state.accumulation.last_type));
        compare_next(drive, &state, next_count(&state, state.last + random_below(random, 20)),
                     other_type(random));
        compare_next_burst(drive, &state, state.last + 1);
        compare_next_burst(drive, &state, state.last + 1);
        compare_next_burst(drive, &state, next_count(&state, state.last + random_below(random, 4)));
    }
    compare_next(drive, &state, stream_late(random, state.last), any_type(random));
    compare_jumps(drive, &state);
    reader_make(random, &reader, &state);
    compare_finish(drive, &reader, LPMAG_OK);
    compare_finish(drive, &reader, LPMAG_OK);
}

/* ---- states that break it --------------------------------------------- */

/* Refused by all three functions, whatever the record is and how many there are. */
static void compare_broken(struct drive *drive, const struct lpmag_state *state)
{
    static struct reader reader;
    struct random *random = &drive->random;
    struct input input;
    reader_make(random, &reader, state);
    input_make(random, &input, state->last + 1, any_type(random));
    if (random_once_in(random, 4))
        input_spoil(random, &input, random_between(random, GENERATE_FIRST_RULE, GENERATE_LAST_RULE));
    compare_step(drive, &reader, &input, 1);
    compare_feed_refused(drive, &reader);
    compare_finish(drive, &reader, 1);
}

static void compare_every_clause(struct drive *drive)
{
    begin(drive, "states that break a clause of the list alone, each in each form");
    for (enum clause clause = 0; clause < CLAUSES; clause++)
        for (uint32_t form = 0; form < break_forms(clause); form++)
            for (unsigned i = 0; i < 150; i++) {
                struct lpmag_state state = broken_state(&drive->random, clause, form);
                compare_broken(drive, &state);
                for (enum call call = 0; call < CALLS; call++)
                    drive->broken[call][clause]++;
            }

    begin(drive, "states with counts at 2^36 and past it");
    for (uint32_t form = 0; form < COUNT_FORMS; form++)
        for (unsigned i = 0; i < 500; i++) {
            struct lpmag_state state = broken_counts(&drive->random, form);
            compare_broken(drive, &state);
        }
}

/* ---- any bytes -------------------------------------------------------- */

enum { FLAG = offsetof(struct lpmag_state, any) };

/* A state of which nothing is known but its bytes. */
static void compare_bytes(struct drive *drive, struct reader *reader, const uint8_t *bytes)
{
    struct random *random = &drive->random;
    struct lpmag_state state;
    struct input input;
    memcpy(&state, bytes, sizeof state);
    reader_set(reader, &state);
    input_make(random, &input, state.last + 1, any_type(random));
    compare_taken(drive, reader, &input, expected_step(&state, input.content.count), 4);
    if (random_once_in(random, 4))
        compare_finish(drive, reader, expected_finish(&reader->state));
}

static void compare_changed_bytes(struct drive *drive)
{
    static struct reader reader;
    struct random *random = &drive->random;
    uint8_t bytes[sizeof(struct lpmag_state)];
    begin(drive, "states that keep the list, with every byte changed");
    for (unsigned i = 0; i < 300; i++) {
        struct lpmag_state state = any_state(random, i % 2 == 0, i / 2 % 2 == 0);
        reader_make(random, &reader, &state);
        memcpy(bytes, &state, sizeof bytes);
        for (size_t at = 0; at < sizeof bytes; at++) {
            uint8_t kept = bytes[at];
            const uint8_t changed[] = {(uint8_t)(kept + 1), (uint8_t)(kept - 1),
                                       (uint8_t)(kept ^ 1 << random_below(random, 8)),
                                       (uint8_t)random_next(random)};
            for (size_t j = 0; j < sizeof changed; j++) {
                bytes[at] = changed[j];
                compare_bytes(drive, &reader, bytes);
            }
            bytes[at] = kept;
        }
    }
}

static void compare_random_bytes(struct drive *drive)
{
    static struct reader reader;
    struct random *random = &drive->random;
    uint8_t bytes[sizeof(struct lpmag_state)];
    reader_make(random, &reader, &fresh);
    begin(drive, "states of any bytes");
    for (unsigned i = 0; i < 20000; i++) {
        random_fill(random, bytes, sizeof bytes);
        bytes[FLAG] = (uint8_t)(i % 4 == 0 ? bytes[FLAG] : i % 2);
        compare_bytes(drive, &reader, bytes);
    }

    begin(drive, "states of a few bytes that aren't 0");
    for (unsigned i = 0; i < 20000; i++) {
        memset(bytes, 0, sizeof bytes);
        bytes[FLAG] = (uint8_t)random_below(random, 2);
        for (uint32_t j = random_below(random, 4); j > 0; j--)
            bytes[random_below(random, sizeof bytes)] = (uint8_t)(1 << random_below(random, 8));
        compare_bytes(drive, &reader, bytes);
    }
}

void drive_states(struct drive *drive)
{
    begin(drive, "states that keep the list, with every kind of next record");
    for (unsigned i = 0; i < 18000; i++)
        compare_passing(drive, i % 4 < 3, i % 8 < 5);
    compare_every_clause(drive);
    compare_changed_bytes(drive);
    compare_random_bytes(drive);
}
