#include "states.h"

#include "base/text.h"

/* ---- states that keep the list ---------------------------------------- */

static bool coin(struct random *random)
{
    return random_once_in(random, 2);
}

/* A number from 0 to `most`, often one of the two. */
static uint64_t up_to(struct random *random, uint64_t most)
{
    switch (random_below(random, 4)) {
    case 0:
        return 0;
    case 1:
        return most;
    default:
        return random_to(random, most);
    }
}

/* A count from 0 to `most`, often in the first turn, about the start of any, or among the last
 * as many as a turn has. */
static uint64_t any_count(struct random *random, uint64_t most)
{
    uint64_t count = up_to(random, most);
    switch (random_below(random, 5)) {
    case 0:
        return count % ROUND;
    case 1:
        count = (count | (ROUND - 1)) + 101 - random_below(random, 200);
        return count < most ? count : most;
    case 2:
        return most - random_to(random, most < ROUND ? most : ROUND - 1);
    default:
        return count;
    }
}

/* Room between two counts, often none, now and then of many turns. */
static uint64_t room(struct random *random)
{
    static const uint64_t most[] = {0, 0, 0, 80, 80, 4000000, 4000000, (uint64_t)1 << 33};
    return up_to(random, most[random_below(random, 8)]);
}

/* Some of so many marks: one alone, the lowest ones, or any. */
static uint64_t any_held(struct random *random, uint32_t marks)
{
    const uint64_t all = ((uint64_t)1 << marks) - 1;
    uint64_t held = random_next(random) & all;
    switch (random_below(random, 4)) {
    case 0:
        return (uint64_t)1 << random_below(random, marks);
    case 1:
        return all >> random_below(random, marks);
    default:
        return held != 0 ? held : 1;
    }
}

/* First count, last and last accepted, each as far after the one before as the list
 * demands, and some room. */
static void open_accumulation(struct random *random, struct lpmag_state *state)
{
    struct lpmag_accumulation *open = &state->accumulation;
    open->held = any_held(random, TYPES);
    open->last_type = (uint8_t)highest(open->held);
    open->others = room(random);
    uint64_t frames = ones(open->held) - 1 + room(random);
    uint64_t after = open->others + room(random);
    open->first = any_count(random, COUNTS - 1 - frames - after);
    open->last_count = open->first + frames;
    state->last = open->last_count + after;
}

/* The slot of the last accepted count, and any before it. */
static void open_major(struct random *random, struct lpmag_state *state)
{
    struct lpmag_major *open = &state->major;
    unsigned last = state->last & 15;
    open->number = state->last >> 4;
    open->slots = (uint16_t)(1u << last | (up_to(random, 0xFFFF) & ((1u << last) - 1)));
    open->mag_slots = (uint16_t)(up_to(random, 0xFFFF) & open->slots);
    for (unsigned slot = 0; slot < SLOTS; slot++) {
        open->ranges[slot] = open->mag_slots >> slot & 1 ? (uint8_t)up_to(random, 7) : 0;
        open->words[slot] = open->slots >> slot & 1 ? (uint16_t)up_to(random, 0xFFFF) : 0;
    }
}

/* Its first count is at most the last accepted, often that one or shortly before. */
static void open_snapshot(struct random *random, struct lpmag_state *state)
{
    struct lpmag_snapshot *open = &state->snapshot;
    uint64_t before = room(random);
    open->held = (uint32_t)any_held(random, PACKETS);
    open->last_type = (uint8_t)(FIRST_PACKET + highest(open->held));
    open->first = before <= state->last ? state->last - before : any_count(random, state->last);
    open->cut = coin(random);
}

struct lpmag_state any_state(struct random *random, bool accumulation, bool major)
{
    struct lpmag_state state = {.any = 1};
    if (accumulation)
        open_accumulation(random, &state);
    else
        state.last = any_count(random, COUNTS - 1);
    if (major)
        open_major(random, &state);
    if (coin(random))
        open_snapshot(random, &state);
    return state;
}

struct lpmag_state any_good_state(struct random *random)
{
    bool accumulation = coin(random);
    bool major = coin(random);
    return any_state(random, accumulation, major);
}

struct lpmag_state any_state_with_a_next(struct random *random)
{
    struct lpmag_state state;
    do
        state = any_good_state(random);
    while (state.last == COUNTS - 1);
    return state;
}

/* ---- states that break a clause --------------------------------------- */

static const uint64_t past_counts[] = {
    COUNTS, COUNTS + 1, COUNTS + 100, 2 * COUNTS - 1, COUNTS << 4, (uint64_t)1 << 63, UINT64_MAX,
};
enum { PAST_COUNTS = sizeof past_counts / sizeof past_counts[0] };

uint32_t break_forms(enum clause clause)
{
    static const uint32_t forms[CLAUSES] = {
        [FLAG_IS_0_OR_1] = 4,
        [CUT_IS_0_OR_1] = 4,
        [SPARES_ARE_0] = 5,
        [LAST_ACCEPTED_BELOW] = PAST_COUNTS,
        [FRAMES_AMONG_36] = 2 * (64 - TYPES),
        [HIGHEST_IS_LAST_TYPE] = 6,
        [FIRST_AND_FRAMES] = 6,
        [LAST_AND_OTHERS] = 8,
        [MAG_AMONG_SLOTS] = 1,
        [MAJOR_NUMBER] = 7,
        [HIGHEST_SLOT] = 4,
        [RANGES_TO_7] = 4,
        [RANGES_NOT_HELD] = 4,
        [WORDS_NOT_HELD] = 4,
        [NO_ACCUMULATION_OPEN] = 8,
        [NO_SLOT_HELD] = 4,
        [NOTHING_ACCEPTED] = 10,
        [PACKETS_AMONG_20] = 2 * (32 - PACKETS),
        [HIGHEST_IS_LAST_PACKET] = 8,
        [SNAPSHOT_BEFORE_LAST] = 6,
        [NO_SNAPSHOT_OPEN] = 6,
    };
    return forms[clause];
}

/* The last accepted count moves, and the open major frame with it. A snapshot that is open stays. */
static void move_last(struct random *random, struct lpmag_state *state, uint64_t last)
{
    bool major = state->major.slots != 0;
    state->last = last;
    state->major = (struct lpmag_major){0};
    if (major)
        open_major(random, state);
}

static void drop_slot(struct lpmag_major *open, unsigned slot)
{
    open->slots &= (uint16_t)~(1u << slot);
    open->mag_slots &= (uint16_t)~(1u << slot);
    open->ranges[slot] = 0;
    open->words[slot] = 0;
}

/* The bit among the spare fields of the state or of its accumulation. */
static void set_among(uint8_t *spare8, uint16_t *spare16, uint32_t *spare32, unsigned bit)
{
    if (bit < 8)
        *spare8 |= (uint8_t)(1u << bit);
    else if (bit < 8 + 16)
        *spare16 |= (uint16_t)(1u << (bit - 8));
    else
        *spare32 |= 1u << (bit - 8 - 16);
}

void set_spare_bit(struct lpmag_state *state, unsigned bit)
{
    struct lpmag_accumulation *accumulation = &state->accumulation;
    if (bit < SPARES)
        set_among(&state->spare8, &state->spare16, &state->spare32, bit);
    else if (bit < 2 * SPARES)
        set_among(&accumulation->spare8, &accumulation->spare16, &accumulation->spare32, bit - SPARES);
    else if (bit < 2 * SPARES + 32)
        state->major.spare32 |= 1u << (bit - 2 * SPARES);
    else
        state->snapshot.spare16 |= (uint16_t)(1u << (bit - 2 * SPARES - 32));
}

/* Some bits, the last form all. */
static void break_spares(struct random *random, struct lpmag_state *state, uint32_t form)
{
    for (uint32_t i = 0; i <= form; i++)
        set_spare_bit(state, random_below(random, SPARE_BITS));
    for (unsigned bit = 0; form == 4 && bit < SPARE_BITS; bit++)
        set_spare_bit(state, bit);
}

/* A mark from 36 on, among the others or alone. */
static void break_frames(struct lpmag_accumulation *open, uint32_t form)
{
    uint32_t mark = TYPES + form / 2;
    open->held = (uint64_t)1 << mark | (form % 2 == 0 ? open->held : 0);
    open->last_type = (uint8_t)mark;
}

static void break_last_type(struct random *random, struct lpmag_accumulation *open, uint32_t form)
{
    const uint8_t types[] = {
        (uint8_t)(open->last_type + 1),
        (uint8_t)(open->last_type - 1),
        (uint8_t)(open->last_type + 64),                          /* of the same low six bits */
        (uint8_t)__builtin_ctzll(open->held | (uint64_t)1 << 63), /* the lowest held */
        255,
        (uint8_t)random_next(random),
    };
    open->last_type = types[form];
}

static void break_first(struct random *random, struct lpmag_accumulation *open, uint32_t form)
{
    uint64_t frames = ones(open->held);
    switch (form) {
    case 0:
        open->first = open->last_count - frames + 2;
        break;
    case 1:
        open->last_count = open->first + frames - 2;
        break;
    case 2:
        open->first = open->last_count;
        break;
    case 3:
        open->first = open->last_count + 1;
        break;
    case 4:
        open->first = COUNTS - 1;
        break;
    default:
        open->first = up_to(random, COUNTS - 1);
    }
}

/* A sum that is one too large, or whose low 32 bits are small, or that leaves 64
 * bits and comes back small; or a last count that is too large by itself. */
static void break_others(struct random *random, struct lpmag_state *state, uint32_t form)
{
    struct lpmag_accumulation *open = &state->accumulation;
    const uint64_t others[] = {
        state->last - open->last_count + 1,
        (uint64_t)1 << 32,
        (uint64_t)1 << 63,
        UINT64_MAX,           /* with the last count, one less than that */
        0 - open->last_count, /* with it, 0 */
        COUNTS - open->last_count,
    };
    const uint64_t lasts[] = {state->last + 1, up_to(random, COUNTS - 1)};
    if (form < 6) {
        open->others = others[form];
    } else {
        open->last_count = lasts[form - 6];
        open->others = 0;
    }
}

static void break_number(struct random *random, struct lpmag_major *open, uint32_t form)
{
    const uint64_t numbers[] = {
        open->number + 1,
        open->number - 1,
        open->number + ((uint64_t)1 << 60), /* 16 times it is the same in 64 bits */
        open->number + ((uint64_t)1 << 32),
        0,
        UINT64_MAX,
        up_to(random, COUNTS >> 4),
    };
    open->number = numbers[form];
}

/* Another slot, or the last one gone. */
static void break_slots(struct random *random, struct lpmag_state *state, uint32_t form)
{
    if (form < 2)
        drop_slot(&state->major, state->last & 15);
    else
        state->major.slots |= (uint16_t)(1u << (form == 2 ? 15 : random_below(random, SLOTS)));
}

static void break_closed(struct random *random, struct lpmag_accumulation *closed, uint32_t form)
{
    switch (form) {
    case 0:
    case 1:
        closed->first = form == 0 ? 1 : up_to(random, COUNTS - 1);
        break;
    case 2:
    case 3:
        closed->last_type = (uint8_t)(form == 2 ? 1 : up_to(random, 255));
        break;
    case 4:
    case 5:
        closed->last_count = form == 4 ? 1 : up_to(random, COUNTS - 1);
        break;
    default:
        closed->others = form == 6 ? 1 : UINT64_MAX;
    }
}

/* A mark past the last packet, among the others or alone. */
static void break_packets(struct lpmag_snapshot *open, uint32_t form)
{
    uint32_t mark = PACKETS + form / 2;
    open->held = (uint32_t)1 << mark | (form % 2 == 0 ? open->held : 0);
    open->last_type = (uint8_t)(FIRST_PACKET + mark);
}

static void break_last_packet(struct random *random, struct lpmag_snapshot *open, uint32_t form)
{
    const uint8_t types[] = {
        (uint8_t)(open->last_type + 1),
        (uint8_t)(open->last_type - 1),
        (uint8_t)(open->last_type - FIRST_PACKET),                      /* the mark's own number */
        (uint8_t)(open->last_type | BIT_6),                             /* of the same low six bits */
        (uint8_t)(FIRST_PACKET + __builtin_ctz(open->held | 1u << 31)), /* the lowest held */
        0,
        255,
        (uint8_t)random_next(random),
    };
    open->last_type = types[form];
}

static void break_snapshot_first(struct random *random, struct lpmag_state *state, uint32_t form)
{
    const uint64_t firsts[] = {
        state->last + 1,     state->last + 2, state->last | (ROUND - 1),
        state->last + ROUND, COUNTS - 1,      up_to(random, COUNTS - 1),
    };
    state->snapshot.first = firsts[form];
}

static void break_closed_snapshot(struct random *random, struct lpmag_snapshot *closed, uint32_t form)
{
    switch (form) {
    case 0:
    case 1:
        closed->first = form == 0 ? 1 : up_to(random, COUNTS - 1);
        break;
    case 2:
        closed->last_type = FIRST_PACKET;
        break;
    case 3:
        closed->last_type = (uint8_t)up_to(random, 255);
        break;
    case 4:
        closed->cut = 1;
        break;
    default:
        closed->first = up_to(random, COUNTS - 1);
        closed->last_type = (uint8_t)random_between(random, 36, 55);
        closed->cut = coin(random);
    }
}

/* Nothing was accepted, but something isn't 0: the least that keeps all other
 * clauses, or anything. */
static void break_nothing(struct random *random, struct lpmag_state *state, uint32_t form)
{
    if (form < 9)
        *state = (struct lpmag_state){0};
    state->any = 0;
    switch (form) {
    case 0:
        state->last = 1;
        break;
    case 1:
        state->last = up_to(random, COUNTS - 1);
        break;
    case 2:
        state->accumulation.held = 1;
        break;
    case 3:
        state->major.slots = 1;
        break;
    case 4:
        state->major.slots = state->major.mag_slots = 1;
        state->major.ranges[0] = 7;
        break;
    case 5:
        state->major.slots = 1;
        state->major.words[0] = 1;
        break;
    case 6: /* the turn alone */
        state->last = ROUND * random_between(random, 1, 4095);
        break;
    case 7: /* a snapshot alone, from count 0 */
    case 8:
        state->snapshot.held = (uint32_t)any_held(random, PACKETS);
        state->snapshot.last_type = (uint8_t)(FIRST_PACKET + highest(state->snapshot.held));
        state->snapshot.cut = form == 8;
        break;
    }
}

static void break_clause(struct random *random, struct lpmag_state *state, enum clause clause, uint32_t form)
{
    static const uint8_t flags[4] = {2, 3, 128, 255};
    static const uint8_t ranges[4] = {8, 16, 128, 255};
    static const uint8_t ranges_not_held[4] = {1, 7, 8, 255};
    static const uint16_t words[4] = {0x0001, 0x0100, 0x8000, 0xFFFF};
    const uint64_t numbers[4] = {1, state->last >> 4, (uint64_t)1 << 60, UINT64_MAX};
    unsigned slot = random_below(random, SLOTS);
    switch (clause) {
    case FLAG_IS_0_OR_1:
        state->any = flags[form];
        break;
    case CUT_IS_0_OR_1:
        state->snapshot.cut = flags[form];
        break;
    case SPARES_ARE_0:
        break_spares(random, state, form);
        break;
    case LAST_ACCEPTED_BELOW:
        move_last(random, state, past_counts[form]);
        break;
    case FRAMES_AMONG_36:
        break_frames(&state->accumulation, form);
        break;
    case HIGHEST_IS_LAST_TYPE:
        break_last_type(random, &state->accumulation, form);
        break;
    case FIRST_AND_FRAMES:
        break_first(random, &state->accumulation, form);
        break;
    case LAST_AND_OTHERS:
        break_others(random, state, form);
        break;
    case MAG_AMONG_SLOTS:
        state->major.mag_slots |= (uint16_t)(1u << slot);
        break;
    case MAJOR_NUMBER:
        break_number(random, &state->major, form);
        break;
    case HIGHEST_SLOT:
        break_slots(random, state, form);
        break;
    case RANGES_TO_7:
        state->major.ranges[slot] = ranges[form];
        break;
    case RANGES_NOT_HELD:
        state->major.ranges[slot] = ranges_not_held[form];
        break;
    case WORDS_NOT_HELD:
        state->major.words[slot] = words[form];
        break;
    case NO_ACCUMULATION_OPEN:
        break_closed(random, &state->accumulation, form);
        break;
    case NO_SLOT_HELD:
        state->major.number = numbers[form];
        break;
    case NOTHING_ACCEPTED:
        break_nothing(random, state, form);
        break;
    case PACKETS_AMONG_20:
        break_packets(&state->snapshot, form);
        break;
    case HIGHEST_IS_LAST_PACKET:
        break_last_packet(random, &state->snapshot, form);
        break;
    case SNAPSHOT_BEFORE_LAST:
        break_snapshot_first(random, state, form);
        break;
    case NO_SNAPSHOT_OPEN:
        break_closed_snapshot(random, &state->snapshot, form);
        break;
    default:
        break;
    }
}

/* Most changes break the clause, and only it, in some states and not in others;
 * so it is tried until one comes that serves. */
struct lpmag_state broken_state(struct random *random, enum clause clause, uint32_t form)
{
    for (unsigned tries = 0; tries < 100000; tries++) {
        struct lpmag_state state = any_good_state(random);
        break_clause(random, &state, clause, form);
        if (clauses_broken(&state) == 1u << clause)
            return state;
    }
    fail(1, "compare: no state was found that breaks a clause of the list alone");
}

struct lpmag_state broken_counts(struct random *random, uint32_t form)
{
    struct lpmag_state state = any_state(random, true, false);
    struct lpmag_accumulation *open = &state.accumulation;
    uint64_t past = past_counts[random_below(random, PAST_COUNTS)];
    uint64_t frames = ones(open->held) - 1;
    switch (form) {
    case 0: /* only the last accepted */
        state.last = past;
        break;
    case 1: /* and the last real-time */
        open->last_count = state.last = past;
        open->others = 0;
        break;
    case 2: /* and the first */
        open->first = past - frames;
        open->last_count = state.last = past;
        open->others = 0;
        break;
    case 3: /* the last real-time alone */
        open->last_count = past;
        break;
    case 4: /* the first alone */
        open->first = past;
        break;
    case 5: /* the first, so large that with the frames it comes back small */
        open->held = ALL_HELD;
        open->last_type = TYPES - 1;
        open->first = 0 - (uint64_t)random_between(random, 1, TYPES - 1);
        break;
    default: /* that of a snapshot, alone or with the last accepted */
        open_snapshot(random, &state);
        state.snapshot.first = past;
        state.last = form == 6 ? state.last : past;
    }
    if (coin(random))
        open_major(random, &state);
    return state;
}
