/* What the reader refuses: sizes that are wrong, records that break a rule, and
 * several at once, of which the first in 01's order is given. */
#include "driver/calls.h"
#include "driver/states.h"
#include "driver/streams.h"
#include "subjects.h"

#include <system.h>

/* ---- sizes ------------------------------------------------------------ */

enum { WRONG_SIZES = 10 };
static size_t wrong_size(struct random *random, size_t right, unsigned form)
{
    const size_t sizes[WRONG_SIZES] = {
        0,
        1,
        right - 1,
        right + 1,
        right / 2,
        right - 16,
        right + 16,
        right + 64,
        right < 256 ? right + 256 : right - 256, /* the same in eight bits */
        random_below(random, (uint32_t)right),
    };
    return sizes[form];
}

/* With a good record, or one that is to be refused for another reason too; with no
 * record, one and many. */
static void compare_size(struct drive *drive, enum lent_room room, unsigned form)
{
    static struct reader reader;
    struct random *random = &drive->random;
    struct lpmag_state state = any_state_with_a_next(random);
    struct input input;
    reader_make(random, &reader, &state);
    reader_resize(random, &reader, room, wrong_size(random, right_size(room), form));
    input_make(random, &input, state.last + 1, (uint8_t)random_below(random, TYPES));
    compare_step(drive, &reader, &input, 1);
    input_spoil(random, &input, random_between(random, GENERATE_FIRST_RULE, GENERATE_LAST_RULE));
    compare_step(drive, &reader, &input, 1);
    compare_feed_refused(drive, &reader);
    compare_finish(drive, &reader, 1);
    for (enum call call = 0; call < CALLS; call++)
        drive->wrong_sizes[call][room]++;
}

static void compare_sizes(struct drive *drive)
{
    begin(drive, "each buffer of a wrong size");
    for (enum lent_room room = 0; room < SIZED; room++)
        for (unsigned form = 0; form < WRONG_SIZES; form++)
            for (unsigned i = 0; i < 40; i++)
                compare_size(drive, room, form);
}

/* One has another's size, or that of something else. */
static void compare_sizes_exchanged(struct drive *drive)
{
    static const size_t sizes[] = {
        LPMAG_CELLS,  LPMAG_FRAME,    LPMAG_FRAME * sizeof(int16_t), LPMAG_RECORD,
        LPMAG_PACKET, LPMAG_SAMPLES,  sizeof(struct lpmag_state),    sizeof(struct lpmag_fed),
        LPMAG_BURST,  LPMAG_SNAPSHOT,
    };
    static struct reader reader;
    struct random *random = &drive->random;
    struct input input;
    begin(drive, "sizes that belong to another");
    for (unsigned i = 0; i < 200; i++) {
        struct lpmag_state state = any_state_with_a_next(random);
        input_make(random, &input, state.last + 1, (uint8_t)random_below(random, TYPES));
        for (enum lent_room room = 0; room < SIZED; room++)
            for (size_t j = 0; j < sizeof sizes / sizeof sizes[0]; j++) {
                if (sizes[j] == right_size(room) || bytes_in(room, sizes[j]) > LEND_ROOM)
                    continue;
                reader_make(random, &reader, &state);
                reader_resize(random, &reader, room, sizes[j]);
                compare_step(drive, &reader, &input, 1);
                compare_finish(drive, &reader, 1);
            }
    }
}

/* ---- records ---------------------------------------------------------- */

static void compare_one_rule_broken(struct drive *drive)
{
    static struct reader reader;
    struct random *random = &drive->random;
    struct input input;
    begin(drive, "the reader on records that break one rule, in each form");
    for (unsigned rule = GENERATE_FIRST_RULE; rule <= GENERATE_LAST_RULE; rule++)
        for (uint32_t form = 0; form < spoil_forms(rule); form++)
            for (unsigned i = 0; i < 100; i++) {
                struct lpmag_state state = any_state_with_a_next(random);
                reader_make(random, &reader, &state);
                input_make(random, &input, state.last + 1, (uint8_t)random_below(random, TYPES));
                size_t length = spoil_form(random, input.record, rule, form);
                input.length = length;
                compare_step(drive, &reader, &input, (uint8_t)rule);
            }
}

static void compare_any_record(struct drive *drive)
{
    static struct reader reader;
    struct random *random = &drive->random;
    struct input input;
    begin(drive, "the reader on records of every length, and on random bytes");
    for (size_t length = 0; length <= GENERATE_LONGEST; length++) {
        struct lpmag_state state = any_state_with_a_next(random);
        reader_make(random, &reader, &state);
        random_fill(random, input.record, sizeof input.record);
        input_make(random, &input, state.last + 1, (uint8_t)random_below(random, TYPES));
        input.length = length;
        compare_step(drive, &reader, &input, length == LPMAG_RECORD ? LPMAG_OK : 2);
        random_fill(random, input.record, sizeof input.record);
        input.record[0] |= 1; /* the sync's first byte is even */
        compare_step(drive, &reader, &input, length == LPMAG_RECORD ? 3 : 2);
    }
}

/* ---- several at once -------------------------------------------------- */

/* Breaks rule 1: a clause of the state's list, or a size, or both. */
static void break_rule_1(struct random *random, struct reader *reader)
{
    enum clause clause = (enum clause)random_below(random, CLAUSES);
    bool state = random_once_in(random, 2);
    if (state && break_forms(clause) > 0) {
        struct lpmag_state broken = broken_state(random, clause, random_below(random, break_forms(clause)));
        reader_set(reader, &broken);
    }
    if (!state || break_forms(clause) == 0 || random_once_in(random, 4)) {
        enum lent_room room = (enum lent_room)random_below(random, SIZED);
        reader_resize(random, reader, room,
                      wrong_size(random, right_size(room), random_below(random, WRONG_SIZES)));
    }
}

/* 02, request 1. Rule 14 is broken by a count below the last accepted's in the last turn, also
 * where it isn't later. */
static bool past_turns(const struct lpmag_state *state, uint64_t own)
{
    return state->last / ROUND == 4095 && own < state->last % ROUND;
}

/* A state, and the count of a record that breaks these of rules 12 and 14 after it and keeps the
 * other; most states and counts don't serve. */
static uint64_t count_that_breaks(struct random *random, bool late, bool past, struct lpmag_state *state)
{
    uint64_t count;
    do {
        *state = any_state_with_a_next(random);
        count = state->last + 1;
        if (late)
            count = stream_late(random, state->last);
        else if (past && stream_can_pass(state->last))
            count = stream_past(random, state->last);
    } while (past_turns(state, count % ROUND) != past);
    return count;
}

/* The rules broken are a set of bits; the lowest has to win. */
static void compare_rules_broken(struct drive *drive, uint32_t rules)
{
    static struct reader reader;
    struct random *random = &drive->random;
    struct lpmag_state state;
    struct input input;
    uint8_t lowest = 0;
    uint64_t count = count_that_breaks(random, rules >> 12 & 1, rules >> 14 & 1, &state);
    reader_make(random, &reader, &state);
    input_make(random, &input, count, (uint8_t)random_below(random, TYPES));
    for (uint8_t rule = REFUSALS - 1; rule >= 1; rule--) {
        if ((rules >> rule & 1) == 0)
            continue;
        if (rule <= GENERATE_LAST_RULE && rule >= GENERATE_FIRST_RULE)
            input_spoil(random, &input, rule);
        if (rule == 1)
            break_rule_1(random, &reader);
        lowest = rule;
    }
    compare_taken(drive, &reader, &input, lowest, 4);
}

static void compare_several_rules_broken(struct drive *drive)
{
    static const uint8_t rules[] = {1, 2, 3, 4, 5, 6, 7, 8, 9, 10, 11, 12, 14};
    enum { RULES = sizeof rules };
    begin(drive, "the reader with two rules broken, every pair");
    for (unsigned one = 0; one < RULES; one++)
        for (unsigned other = one + 1; other < RULES; other++)
            for (unsigned i = 0; i < 100; i++)
                compare_rules_broken(drive, 1u << rules[one] | 1u << rules[other]);

    begin(drive, "the reader with any set of rules broken");
    for (uint32_t set = 0; set < 1u << RULES; set++)
        for (unsigned i = 0; i < 4; i++) {
            uint32_t broken = 0;
            for (unsigned rule = 0; rule < RULES; rule++)
                broken |= (set >> rule & 1) << rules[rule];
            compare_rules_broken(drive, broken);
        }
}

void drive_refusals(struct drive *drive)
{
    compare_sizes(drive);
    compare_sizes_exchanged(drive);
    compare_one_rule_broken(drive);
    compare_any_record(drive);
    compare_several_rules_broken(drive);
}
