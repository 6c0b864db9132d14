/* The second reader's state: its marks, and rule 1's demands on what was lent, a
 * function for each: the header's on the flags and the spare fields, and each clause of
 * 01's list and of what 02's request 2 adds to it. */
#include "state.h"

#include "electrons.h"
#include "snapshot.h"

#include <string.h>

/* ---- counts ----------------------------------------------------------- */

uint64_t second_full_count(uint64_t turn, uint32_t own_count)
{
    return turn * SECOND_COUNTS_OF_A_TURN + own_count;
}

uint64_t second_last_accepted(const struct state *state)
{
    return second_full_count(state->turn, state->own_count);
}

/* ---- marks ------------------------------------------------------------ */

/* Mark i is the bit of weight 2^i, so the first is told by whether the number is odd. */
static void read_marks(uint64_t number, bool *marks, size_t count)
{
    for (size_t i = 0; i < count; i++, number /= 2)
        marks[i] = number % 2 == 1;
}

uint64_t second_marks_number(const bool *marks, size_t count)
{
    uint64_t number = 0;
    for (size_t i = count; i > 0; i--)
        number = 2 * number + marks[i - 1];
    return number;
}

size_t second_marks_set(const bool *marks, size_t count)
{
    size_t set = 0;
    for (size_t i = 0; i < count; i++)
        set += marks[i];
    return set;
}

/* The number of the highest mark that is set, and one more; 0 where none is. */
static size_t past_highest(const bool *marks, size_t count)
{
    while (count > 0 && !marks[count - 1])
        count--;
    return count;
}

struct major_frame second_read_major(const struct second_major *lent)
{
    struct major_frame major = {.number = lent->number};
    read_marks(lent->slots, major.held, SECOND_SLOTS);
    read_marks(lent->mag_slots, major.mag, SECOND_SLOTS);
    memcpy(major.ranges, lent->ranges, sizeof major.ranges);
    memcpy(major.words, lent->words, sizeof major.words);
    return major;
}

struct second_major second_lent_major(const struct major_frame *major)
{
    struct second_major lent = {.number = major->number,
                                .slots = (uint16_t)second_marks_number(major->held, SECOND_SLOTS),
                                .mag_slots = (uint16_t)second_marks_number(major->mag, SECOND_SLOTS)};
    memcpy(lent.ranges, major->ranges, sizeof lent.ranges);
    memcpy(lent.words, major->words, sizeof lent.words);
    return lent;
}

static struct accumulation read_accumulation(const struct second_accumulation *lent)
{
    struct accumulation accumulation = {.first_count = lent->first,
                                        .last_type = lent->last_type,
                                        .last_count = lent->last_count,
                                        .others = lent->others};
    read_marks(lent->held, accumulation.held, SECOND_FRAME_MARKS);
    return accumulation;
}

static struct snapshot read_snapshot(const struct second_snapshot *lent)
{
    struct snapshot snapshot = {
        .first_count = lent->first, .last_type = lent->last_type, .cut = lent->cut == 1};
    read_marks(lent->held, snapshot.held, SECOND_PACKET_MARKS);
    return snapshot;
}

struct second_state second_lent_state(const struct state *state)
{
    const struct accumulation *accumulation = &state->accumulation;
    const struct snapshot *snapshot = &state->snapshot;
    return (struct second_state){.last = second_last_accepted(state),
                                 .any = state->accepted ? 1 : 0,
                                 .accumulation = {.first = accumulation->first_count,
                                                  .held = SECOND_HELD_NUMBER(accumulation),
                                                  .last_count = accumulation->last_count,
                                                  .others = accumulation->others,
                                                  .last_type = accumulation->last_type},
                                 .major = second_lent_major(&state->major),
                                 .snapshot = {.first = snapshot->first_count,
                                              .held = (uint32_t)SECOND_HELD_NUMBER(snapshot),
                                              .last_type = snapshot->last_type,
                                              .cut = snapshot->cut ? 1 : 0}};
}

/* ---- 01's list -------------------------------------------------------- */

/* One number plus another is at most a third, as plain numbers: the sum itself
 * could leave 64 bits. */
static bool sum_at_most(uint64_t one, uint64_t other, uint64_t most)
{
    return one <= most && other <= most - one;
}

/* "the state list (below 2^36)" (02, request 1): no count's turn is past the last. */
static bool counts_below(const struct state *state)
{
    return state->turn <= SECOND_LAST_TURN &&
           state->accumulation.first_count / SECOND_COUNTS_OF_A_TURN <= SECOND_LAST_TURN &&
           state->accumulation.last_count / SECOND_COUNTS_OF_A_TURN <= SECOND_LAST_TURN &&
           state->snapshot.first_count / SECOND_COUNTS_OF_A_TURN <= SECOND_LAST_TURN;
}

/* "frames held among 36, the highest being the last type" */
static bool frames_right(const struct accumulation *open)
{
    size_t past = past_highest(open->held, SECOND_FRAME_MARKS);
    return past == 0 || (past <= SECOND_TYPES && past - 1 == open->last_type);
}

/* "first count plus frames held minus 1 is at most the last real-time count" */
static bool frames_fit(const struct accumulation *open)
{
    size_t frames = SECOND_HELD(open);
    return frames == 0 || sum_at_most(open->first_count, frames - 1, open->last_count);
}

/* "that plus the "other" frames since is at most the last accepted count", "that"
 * being the last real-time count */
static bool others_fit(const struct state *state)
{
    return sum_at_most(state->accumulation.last_count, state->accumulation.others,
                       second_last_accepted(state));
}

/* "MAG slots among the slots" */
static bool mag_slots_right(const struct major_frame *open)
{
    for (size_t slot = 0; slot < SECOND_SLOTS; slot++)
        if (open->mag[slot] && !open->held[slot])
            return false;
    return true;
}

/* "if any slot is held, the open major number and the highest slot held are those
 * of the last accepted count" */
static bool last_slot_right(const struct state *state)
{
    size_t past = past_highest(state->major.held, SECOND_SLOTS);
    uint64_t last = second_last_accepted(state);
    return past == 0 || (state->major.number == last / SECOND_SLOTS && past - 1 == last % SECOND_SLOTS);
}

/* "Ranges are 0 to 7; ranges of MAG slots not held and subcom words of slots not
 * held are 0." */
static bool ranges_and_words_right(const struct major_frame *open)
{
    for (size_t slot = 0; slot < SECOND_SLOTS; slot++) {
        if (open->ranges[slot] > (open->mag[slot] ? 7 : 0))
            return false;
        if (open->words[slot] != 0 && !open->held[slot])
            return false;
    }
    return true;
}

/* "With no accumulation open, its numbers are 0; with no slot held, the open major
 * number is 0." */
static bool closed_are_zero(const struct state *state)
{
    const struct accumulation *accumulation = &state->accumulation;
    if (SECOND_HELD(accumulation) == 0 && (accumulation->first_count != 0 || accumulation->last_type != 0 ||
                                           accumulation->last_count != 0 || accumulation->others != 0))
        return false;
    return SECOND_HELD(&state->major) != 0 || state->major.number == 0;
}

/* 02, request 2: "a snapshot open with [...] its highest not the last type or its first count above
 * the last accepted, or not open with numbers not 0". A mark past type 55 is no packet's. */
static bool snapshot_right(const struct state *state)
{
    const struct snapshot *snapshot = &state->snapshot;
    size_t past = past_highest(snapshot->held, SECOND_PACKET_MARKS);
    if (past == 0)
        return snapshot->first_count == 0 && snapshot->last_type == 0 && !snapshot->cut;
    return past <= SECOND_PACKETS && snapshot->last_type == SECOND_FIRST_PACKET + past - 1 &&
           snapshot->first_count <= second_last_accepted(state);
}

static bool same(const struct second_state *one, const struct second_state *other)
{
    return memcmp(one, other, sizeof *one) == 0;
}

/* "Until something is accepted, all is 0." */
static bool all_zero(const struct second_state *lent)
{
    static const struct second_state fresh;
    return same(lent, &fresh);
}

/* The header, refusal 1: "a flag byte other than 0 and 1, a spare field other than 0". The marks can't
 * say either, so that what is lent comes out another than it came in. */
static bool said_by_marks(const struct second_state *lent, const struct state *state)
{
    struct second_state again = second_lent_state(state);
    return same(lent, &again);
}

/* That an open accumulation holds a frame, an open major frame a slot and an open snapshot a packet
 * is what "open" means in the struct. */
bool second_read_state(const struct second_state *lent, struct state *state)
{
    *state = (struct state){.accepted = lent->any == 1,
                            .turn = lent->last / SECOND_COUNTS_OF_A_TURN,
                            .own_count = (uint32_t)(lent->last % SECOND_COUNTS_OF_A_TURN),
                            .accumulation = read_accumulation(&lent->accumulation),
                            .major = second_read_major(&lent->major),
                            .snapshot = read_snapshot(&lent->snapshot)};
    return said_by_marks(lent, state) && counts_below(state) && frames_right(&state->accumulation) &&
           frames_fit(&state->accumulation) && others_fit(state) && mag_slots_right(&state->major) &&
           last_slot_right(state) && ranges_and_words_right(&state->major) && closed_are_zero(state) &&
           snapshot_right(state) && (state->accepted || all_zero(lent));
}
