/* The structs that the reader's functions are lent: every flag byte and cut mark, every bit of the
 * spare fields, and every field with a value of its own at its own place. */
#include "driver/calls.h"
#include "driver/states.h"
#include "second/record.h"
#include "subjects.h"

#include <system.h>

/* ---- flags and spare fields ------------------------------------------- */

/* Each function by itself, with a state that has to be good or not, and a good record
 * that can follow it. */
static void compare_state(struct drive *drive, const struct lpmag_state *state, bool good)
{
    static struct reader reader;
    struct random *random = &drive->random;
    struct question question = {STEP, NULL, 0, {{"flag", state->any}}};
    struct input input;
    uint8_t expected = good ? LPMAG_OK : 1;
    drive->state = state;
    expect_answer(drive, &question, clauses_broken(state) == 0, good);
    input_make(random, &input, state->last + 1, (uint8_t)random_below(random, TYPES));
    reader_make(random, &reader, state);
    compare_step(drive, &reader, &input, expected);
    reader_make(random, &reader, state);
    if (good)
        compare_feed_of(drive, &reader, &input, expected);
    else
        compare_feed_refused(drive, &reader);
    reader_make(random, &reader, state);
    compare_finish(drive, &reader, expected);
}

/* Not the fresh one's count either, so that what stands in it matters. */
static struct lpmag_state any_state_but_fresh(struct random *random)
{
    struct lpmag_state state;
    do
        state = any_state_with_a_next(random);
    while (state.last == 0);
    return state;
}

/* The cut mark: 1 only where a snapshot is open. */
static void compare_cuts(struct drive *drive)
{
    begin(drive, "every cut mark, in the fresh state and in others");
    for (unsigned i = 0; i < 8; i++)
        for (unsigned cut = 0; cut < 256; cut++) {
            struct lpmag_state state = fresh;
            while (i >= 2 && (state.last == 0 || (state.snapshot.held != 0) != (i < 5)))
                state = any_state_but_fresh(&drive->random);
            state.snapshot.cut = (uint8_t)cut;
            compare_state(drive, &state, cut == 0 || (cut == 1 && state.snapshot.held != 0));
            for (enum call call = 0; call < CALLS; call++)
                drive->cuts[call][state.snapshot.held != 0][cut]++;
        }
}

/* 0 only where nothing else is other than 0, 1 always. */
static void compare_flags(struct drive *drive)
{
    begin(drive, "every flag byte, in the fresh state and in others");
    for (unsigned i = 0; i < 8; i++)
        for (unsigned flag = 0; flag < 256; flag++) {
            bool is_fresh = i < 2;
            struct lpmag_state state = is_fresh ? fresh : any_state_but_fresh(&drive->random);
            state.any = (uint8_t)flag;
            compare_state(drive, &state, flag == 1 || (flag == 0 && is_fresh));
            for (enum call call = 0; call < CALLS; call++)
                drive->flags[call][is_fresh][flag]++;
        }
}

static void compare_spares(struct drive *drive)
{
    begin(drive, "every bit of the spare fields, in the fresh state and in others");
    for (unsigned i = 0; i < 16; i++)
        for (unsigned bit = 0; bit < SPARE_BITS; bit++) {
            struct lpmag_state state = i < 2 ? fresh : any_state_but_fresh(&drive->random);
            set_spare_bit(&state, bit);
            compare_state(drive, &state, false);
            for (enum call call = 0; call < CALLS; call++)
                drive->spares[call][bit]++;
        }
}

/* ---- what comes in, and what is known by it --------------------------- */

/* The records of a major frame by their slots: o is a memory dump, r a real-time frame
 * of the next type, - one of the next type that is lost, b a half burst with the next packet of a
 * snapshot, B a full one with the next two, c a marker with bit 6, which cuts it. */
static const char *const sent[2] = {"orrrr-rrbrrBrobo", "orrrr-rrbrrBrobc"};
enum { FRAMES = 10, BURST_PACKETS = 4 }; /* real-time, the lost one too; packets of the snapshot */

/* Records of one accumulation, one major frame and one snapshot, and what is known by them. */
struct known {
    uint64_t number;
    uint16_t slots, mag_slots;
    uint16_t words[SLOTS];
    uint8_t ranges[SLOTS];
    uint64_t first, held, last_count, others, last;
    uint8_t last_type;
    uint64_t snapshot_first;
    uint32_t packets;
    uint8_t last_packet;
    bool cut;
    size_t records;
    struct input inputs[SLOTS]; /* the records, without the lost one */
    uint8_t gaps[SLOTS];        /* what becomes of each */
};

static bool all_differ(const uint64_t *numbers, size_t count)
{
    for (size_t i = 0; i < count; i++)
        for (size_t j = i + 1; j < count; j++)
            if (numbers[i] == numbers[j])
                return false;
    return true;
}

/* All fields differ that can; the flags have two values for three. */
static bool fields_differ(const struct lpmag_fields *made)
{
    const uint64_t numbers[] = {made->count, made->millisecond, made->level,     made->quality,
                                made->day,   made->subcom,      made->frame_code};
    return all_differ(numbers, sizeof numbers / sizeof numbers[0]) &&
           made->level_finite != made->quality_finite && made->subcom != 0 &&
           (made->first_flag != made->second_flag || made->second_flag != made->third_flag);
}

/* A real-time frame or a memory dump. The kind of a real-time frame is its type. */
static void make_input(struct random *random, struct input *input, uint64_t count, uint8_t type)
{
    struct lpmag_fields made;
    do {
        input_make(random, input, count, type);
        made = fields_of(&input->content);
    } while (!fields_differ(&made) || made.frame_code == made.frame_type);
}

/* A burst; the code of half of them is their type. */
static void make_burst(struct random *random, struct input *input, uint64_t count, uint8_t code,
                       uint8_t second_code)
{
    struct lpmag_fields made;
    do {
        input_make_coded(random, input, count, code, second_code);
        made = fields_of(&input->content);
    } while (!fields_differ(&made) || made.second_code == made.frame_code);
}

static uint64_t count_at(const struct known *known, unsigned slot)
{
    return SLOTS * known->number + slot;
}

static struct input *next_input(struct known *known)
{
    return &known->inputs[known->records];
}

/* What is known by the record that was made last. */
static void add_record(struct known *known, unsigned slot)
{
    struct input *input = next_input(known);
    uint8_t type = input->content.code & 63;
    bool real_time = type < TYPES;
    bool first = known->held == 0;
    known->gaps[known->records++] = !real_time ? LPMAG_NEITHER : first ? LPMAG_OPENS : LPMAG_JOINS;
    known->slots |= (uint16_t)(1u << slot);
    known->words[slot] = input->content.subcom;
    known->last = count_at(known, slot);
    known->others += !real_time && !first;
    if (input_has_mag(input)) {
        uint8_t *status = &input->record[LPMAG_PACKET_AT + LPMAG_MAG_AT];
        *status = (uint8_t)((*status & 0xF8) + (3 * slot + 5) % 8); /* neighbours differ */
        known->mag_slots |= (uint16_t)(1u << slot);
        known->ranges[slot] = *status & 7;
    }
    if (real_time) {
        known->first = first ? known->last : known->first;
        known->held |= (uint64_t)1 << type;
        known->last_type = type;
        known->last_count = known->last;
        known->others = 0;
    }
}

static void add_packet(struct known *known, unsigned slot, uint8_t type)
{
    if (known->packets == 0)
        known->snapshot_first = count_at(known, slot);
    known->packets |= (uint32_t)1 << (type - 36);
    known->last_packet = type;
}

/* The first slots, so many of them, of one of the two majors. */
static void make_records(struct random *random, struct known *known, const char *letters, unsigned slots)
{
    uint64_t majors = (random_once_in(random, 2) ? ROUND : COUNTS) / SLOTS;
    *known = (struct known){.number = random_between(random, 1000, (uint32_t)(majors - 2))};
    uint8_t type = (uint8_t)random_between(random, 3, TYPES - FRAMES);
    uint8_t packet = (uint8_t)random_between(random, 38, 56 - BURST_PACKETS);
    for (unsigned slot = 0; slot < slots; slot++) {
        uint64_t count = count_at(known, slot);
        switch (letters[slot]) {
        case '-':
            type++;
            continue;
        case 'r':
            make_input(random, next_input(known), count, type++);
            break;
        case 'b':
            make_burst(random, next_input(known), count, packet, 0);
            add_packet(known, slot, packet++);
            break;
        case 'B':
            make_burst(random, next_input(known), count, TOP_BIT | packet, (uint8_t)(packet + 1));
            add_packet(known, slot, packet++);
            add_packet(known, slot, packet++);
            break;
        case 'c':
            make_burst(random, next_input(known), count, BIT_6 | 57, 0);
            known->cut = true;
            break;
        default:
            make_input(random, next_input(known), count, 63);
        }
        add_record(known, slot);
    }
}

static bool known_differ(const struct known *known)
{
    enum { FLAG = 1, OF_THE_STATE = 13 };
    uint64_t numbers[OF_THE_STATE + SLOTS] = {
        FLAG,           known->last,        known->first,          known->held,  known->last_count,
        known->others,  known->last_type,   known->number,         known->slots, known->mag_slots,
        known->packets, known->last_packet, known->snapshot_first,
    };
    size_t count = OF_THE_STATE;
    for (unsigned slot = 0; slot < SLOTS; slot++)
        if (known->slots >> slot & 1)
            numbers[count++] = known->words[slot];
    return all_differ(numbers, count);
}

static void make_known(struct random *random, struct known *known, const char *letters, unsigned slots)
{
    do
        make_records(random, known, letters, slots);
    while (!known_differ(known));
}

/* ---- what closes ------------------------------------------------------ */

/* What a call closes: of the snapshots the first is the one that is known, the second has one packet
 * of the record that closes both. */
struct closing {
    bool major;
    bool accumulation;
    unsigned snapshots;
};

/* By a record: a type that isn't above the last one closes an accumulation, likewise a snapshot; any
 * record in the next major frame closes one, and there a count is missing, so that any packet closes
 * a snapshot. Of frames that close accumulations none has a packet. */
static const struct closing closings[] = {
    {true, true, 0},  {true, false, 0},  {false, true, 0}, {false, false, 1},
    {true, false, 1}, {false, false, 2}, {true, false, 2},
};
enum { CLOSINGS = sizeof closings / sizeof closings[0] };
static const struct closing nothing_closes = {false, false, 0};
static const struct closing finish_closes = {true, true, 1};

static void make_closing(struct random *random, const struct known *known, const struct closing *closing,
                         struct input *input)
{
    uint64_t next = SLOTS * (known->number + 1) + random_below(random, SLOTS);
    uint64_t count = closing->major ? next : known->last + 1;
    uint8_t last = (uint8_t)random_between(random, 37, known->last_packet);
    if (closing->snapshots == 2)
        make_burst(random, input, count, TOP_BIT | last, (uint8_t)random_between(random, 36, last));
    else if (closing->snapshots == 1)
        make_burst(random, input, count, last, 0);
    else
        make_input(random, input, count,
                   closing->accumulation ? (uint8_t)random_between(random, 0, known->last_type) : 63);
}

/* ---- the structs byte by byte ----------------------------------------- */

/* Places and sizes are those of include/lpmag.h, the least significant byte first as the
 * machine has it. What isn't put is 0. */
static void put(uint8_t *bytes, size_t at, size_t size, uint64_t number)
{
    for (size_t i = 0; i < size; i++)
        bytes[at + i] = (uint8_t)(number >> 8 * i);
}

static void put_major(uint8_t *bytes, const struct known *known)
{
    put(bytes, 0, 8, known->number);
    for (size_t slot = 0; slot < SLOTS; slot++) {
        put(bytes, 8 + 2 * slot, 2, known->words[slot]);
        put(bytes, 40 + slot, 1, known->ranges[slot]);
    }
    put(bytes, 56, 2, known->slots);
    put(bytes, 58, 2, known->mag_slots);
}

static void put_state(uint8_t *bytes, const struct known *known)
{
    put(bytes, 0, 8, known->last);
    put(bytes, 8, 1, 1);
    put(bytes, 16, 8, known->first);
    put(bytes, 24, 8, known->held);
    put(bytes, 32, 8, known->last_count);
    put(bytes, 40, 8, known->others);
    put(bytes, 48, 1, known->last_type);
    put_major(bytes + 56, known);
    put(bytes, 120, 8, known->snapshot_first);
    put(bytes, 128, 4, known->packets);
    put(bytes, 132, 1, known->last_packet);
    put(bytes, 133, 1, known->cut);
}

static void put_fields(uint8_t *bytes, const struct content *content)
{
    uint8_t type = content->code % 64;
    bool full = type > 35 && type < 63 && content->code >= 128;
    put(bytes, 0, 4, content->count);
    put(bytes, 4, 4, content->millisecond);
    put(bytes, 8, 4, content->level);
    put(bytes, 12, 4, content->quality);
    put(bytes, 16, 2, content->day);
    put(bytes, 18, 2, content->subcom);
    for (size_t i = 0; i < 3; i++)
        put(bytes, 20 + i, 1, content->flags[i]);
    put(bytes, 23, 1, content->code);
    put(bytes, 24, 1, type);
    put(bytes, 25, 1, type <= 35 ? type : type == 63 ? 64 : full ? 67 : 66);
    put(bytes, 26, 1, (content->level >> 23) % 256 != 255);
    put(bytes, 27, 1, (content->quality >> 23) % 256 != 255);
    put(bytes, 28, 1, full ? content->second_code : 0);
}

/* By a record, or by none. */
static void put_closed(uint8_t *bytes, const struct known *known, const struct closing *closing,
                       const struct input *by)
{
    if (closing->major) {
        put_major(bytes, known);
        put(bytes, 80, 1, 1);
    }
    if (closing->accumulation) {
        put(bytes, 64, 8, known->first);
        put(bytes, 72, 8, known->held);
        put(bytes, 81, 1, 1);
    }
    if (closing->snapshots > 0) {
        put(bytes, 88, 8, known->snapshot_first);
        put(bytes, 96, 4, known->packets);
        put(bytes, 100, 1, 1);
    }
    if (closing->snapshots == 2) {
        struct lpmag_state before = {.last = known->last, .any = 1};
        put(bytes, 104, 8, full_count(&before, by->content.count));
        put(bytes, 112, 4, (uint64_t)1 << (by->content.code % 64 - 36));
        put(bytes, 116, 1, 1);
    }
}

/* The fields alone, of a record that was made. */
static void compare_fields_of(struct drive *drive, const struct input *input)
{
    struct question question = {FIELDS, input->record, input->length, {{NULL, 0}}};
    struct lpmag_fields first = {0};
    struct second_fields second = {0};
    uint8_t bytes[32] = {0};
    put_fields(bytes, &input->content);
    same_answer(drive, &question, lpmag_fields(&first, input->record, input->length),
                second_fields(&second, input->record, input->length));
    expect_bytes(drive, &question, "the second's fields aren't what they have to be, byte by byte", &second,
                 bytes, sizeof bytes);
    expect_bytes(drive, &question, "the fields aren't what they have to be, byte by byte", &first, bytes,
                 sizeof bytes);
}

static void expect_report(struct drive *drive, struct reader *reader, const struct input *input, uint8_t gap,
                          const struct known *known, const struct closing *closing)
{
    struct question question = {STEP, input->record, input->length, {{NULL, 0}}};
    struct lpmag_report report = reader_report(reader);
    uint8_t bytes[160] = {0};
    put_fields(bytes, &input->content);
    put(bytes, 32, 1, gap);
    put_closed(bytes + 40, known, closing, input);
    expect_bytes(drive, &question, "the report isn't what it has to be, byte by byte", &report, bytes,
                 sizeof bytes);
    drive->structs[BY_STEP]++;
}

static void expect_fed(struct drive *drive, struct reader *reader, size_t records, uint8_t answer,
                       const struct known *known, const struct closing *closing, const struct input *by)
{
    struct question question = {FEED, NULL, 0, {{"records", records}, {"answer", answer}}};
    struct lpmag_fed fed = reader_fed(reader);
    uint8_t bytes[136] = {0};
    put(bytes, 0, 8, 472 * records);
    put(bytes, 8, 1, answer);
    put_closed(bytes + 16, known, closing, by);
    expect_bytes(drive, &question, "what was fed isn't what it has to be, byte by byte", &fed, bytes,
                 sizeof bytes);
    drive->structs[BY_FEED]++;
}

static void expect_finished(struct drive *drive, struct reader *reader, const struct known *known)
{
    struct question question = {FINISH, NULL, 0, {{NULL, 0}}};
    struct lpmag_closed closed = reader_closed(reader);
    uint8_t bytes[120] = {0};
    put_closed(bytes, known, &finish_closes, NULL);
    expect_bytes(drive, &question, "what was closed isn't what it has to be, byte by byte", &closed, bytes,
                 sizeof bytes);
    drive->structs[BY_FINISH]++;
}

static void expect_state(struct drive *drive, enum function function, struct reader *reader,
                         const struct known *known)
{
    struct question question = {function, NULL, 0, {{NULL, 0}}};
    uint8_t bytes[136] = {0};
    put_state(bytes, known);
    expect_bytes(drive, &question, "the state isn't what it has to be, byte by byte",
                 room_of_struct(&reader->rooms[STATE], &reader->rooms[STATE].first), bytes, sizeof bytes);
}

/* ---- the three functions ---------------------------------------------- */

/* A state that the records can follow: the fresh one where they are in the first turn, else one
 * after a finish, with the count before theirs. */
static struct lpmag_state state_before(const struct known *known)
{
    uint64_t first = SLOTS * known->number;
    return first < ROUND ? fresh : (struct lpmag_state){.last = first - 1, .any = 1};
}

static void compare_by_steps(struct drive *drive, const struct known *known, const struct closing *closing)
{
    static struct reader reader;
    struct lpmag_state before = state_before(known);
    struct input input;
    reader_make(&drive->random, &reader, &before);
    for (size_t i = 0; i < known->records; i++) {
        compare_fields_of(drive, &known->inputs[i]);
        compare_step(drive, &reader, &known->inputs[i], LPMAG_OK);
        expect_report(drive, &reader, &known->inputs[i], known->gaps[i], known, &nothing_closes);
    }
    expect_state(drive, STEP, &reader, known);
    make_closing(&drive->random, known, closing, &input);
    compare_step(drive, &reader, &input, LPMAG_OK);
    expect_report(drive, &reader, &input, closing->accumulation ? LPMAG_OPENS : LPMAG_NEITHER, known,
                  closing);
}

/* Some of the records; then the others and a refused one after them, by any rule from 3
 * to 11; then the closing one. */
static void compare_by_feeding(struct drive *drive, const struct known *known, const struct closing *closing)
{
    static struct reader reader;
    static struct row row;
    struct random *random = &drive->random;
    struct lpmag_state before = state_before(known);
    struct input input;
    uint8_t rule = (uint8_t)random_between(random, GENERATE_FIRST_RULE + 1, GENERATE_LAST_RULE);
    size_t some = random_below(random, (uint32_t)known->records + 1);
    row_clear(&row);
    for (size_t i = 0; i < known->records; i++)
        row_add(&row, &known->inputs[i], LPMAG_OK);
    make_closing(random, known, closing, &input);
    input_spoil(random, &input, rule);
    row_add(&row, &input, rule);
    make_closing(random, known, closing, &input);
    row_add(&row, &input, LPMAG_OK);

    reader_make(random, &reader, &before);
    compare_feed(drive, &reader, &row, 0, LPMAG_RECORD * some);
    expect_fed(drive, &reader, some, LPMAG_OK, known, &nothing_closes, NULL);
    compare_feed(drive, &reader, &row, some, row_left(&row, some));
    expect_fed(drive, &reader, known->records - some + 1, rule, known, &nothing_closes, NULL);
    expect_state(drive, FEED, &reader, known);
    compare_feed(drive, &reader, &row, known->records + 1, LPMAG_RECORD);
    expect_fed(drive, &reader, 1, LPMAG_OK, known, closing, &input);
}

/* From the state put together byte by byte. */
static void compare_by_finishing(struct drive *drive, const struct known *known)
{
    static struct reader reader;
    struct lpmag_state state;
    uint8_t bytes[136] = {0};
    put_state(bytes, known);
    memcpy(&state, bytes, sizeof bytes);
    reader_make(&drive->random, &reader, &state);
    compare_finish(drive, &reader, LPMAG_OK);
    expect_finished(drive, &reader, known);
}

/* The last slot is left for a record that closes no major frame. */
static void compare_fields(struct drive *drive)
{
    static struct known known;
    begin(drive, "structs in which every field has a value of its own");
    for (unsigned i = 0; i < 50 * CLOSINGS; i++) {
        const struct closing *closing = &closings[i % CLOSINGS];
        make_known(&drive->random, &known, sent[i / CLOSINGS % 2], closing->major ? SLOTS : SLOTS - 1);
        compare_by_steps(drive, &known, closing);
        compare_by_feeding(drive, &known, closing);
        compare_by_finishing(drive, &known);
    }
}

void drive_structs(struct drive *drive)
{
    compare_flags(drive);
    compare_cuts(drive);
    compare_spares(drive);
    compare_fields(drive);
}
