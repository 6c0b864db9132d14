#include "calls.h"

#include "second/reader.h"

#include <system.h>

/* ---- a call ----------------------------------------------------------- */

/* A call that is about to be made; the room for what it tells is made with it. */
static struct question ask(struct drive *drive, struct reader *reader, enum function function,
                           const uint8_t *bytes, size_t length, size_t told)
{
    reader_resize(&drive->random, reader, TOLD, told);
    reader->asked = reader->state;
    drive->state = &reader->asked;
    return (struct question){function,
                             bytes,
                             length,
                             {{"bytes of open cells", reader_size(reader, OPEN_CELLS)},
                              {"bytes of finished cells", reader_size(reader, FINISHED_CELLS)},
                              {"open samples", reader_size(reader, OPEN_SAMPLES)},
                              {"finished samples", reader_size(reader, FINISHED_SAMPLES)},
                              {"bytes of the open snapshot", reader_size(reader, OPEN_SNAPSHOT)},
                              {"bytes of the first finished one", reader_size(reader, FIRST_FINISHED)},
                              {"bytes of the second finished one", reader_size(reader, SECOND_FINISHED)}}};
}

enum whose { FIRSTS, SECONDS };

static union lent *lent_to(struct rooms *rooms, enum whose whose)
{
    return whose == FIRSTS ? &rooms->first : &rooms->second;
}

static void *struct_of(struct reader *reader, enum lent_room room, enum whose whose)
{
    return room_of_struct(&reader->rooms[room], lent_to(&reader->rooms[room], whose));
}

static uint8_t *bytes_of(struct reader *reader, enum lent_room room, enum whose whose)
{
    return room_of_bytes(&reader->rooms[room], lent_to(&reader->rooms[room], whose));
}

static int16_t *numbers_of(struct reader *reader, enum lent_room room, enum whose whose)
{
    return room_of_numbers(&reader->rooms[room], lent_to(&reader->rooms[room], whose));
}

/* All that one of the two implementations is lent to write, as its functions have it. */
#define BUFFER(reader, whose, of, room) of(reader, room, whose), reader_size(reader, room)
#define LENT(reader, whose)                                                                                  \
    struct_of(reader, STATE, whose), struct_of(reader, TOLD, whose),                                         \
        BUFFER(reader, whose, bytes_of, OPEN_CELLS), BUFFER(reader, whose, bytes_of, FINISHED_CELLS),        \
        BUFFER(reader, whose, numbers_of, OPEN_SAMPLES),                                                     \
        BUFFER(reader, whose, numbers_of, FINISHED_SAMPLES), BUFFER(reader, whose, bytes_of, OPEN_SNAPSHOT), \
        BUFFER(reader, whose, bytes_of, FIRST_FINISHED), BUFFER(reader, whose, bytes_of, SECOND_FINISHED)

/* ---- after a call ----------------------------------------------------- */

/* Both answers, all rooms, and the bytes given, which stay as they were made. */
static void same_calls(struct drive *drive, const struct question *question, const struct reader *reader,
                       uint8_t first, uint8_t second, const uint8_t *made)
{
    same_answer(drive, question, first, second);
    for (enum lent_room room = 0; room < ROOMS; room++)
        same_rooms(drive, question, &reader->rooms[room], first != LPMAG_OK);
    if (question->length > 0)
        expect_bytes(drive, question, "the bytes given were changed", question->bytes, made,
                     question->length);
}

static void expect_rooms(struct drive *drive, const struct question *question, struct reader *reader)
{
#define WRONG(ROOM, size, name, is) name " " is " to be after the call",
    static const char *const wrong[ROOMS] = {ROOMS_LENT(WRONG)};
    for (enum lent_room room = 0; room < TOLD; room++)
        expect_bytes(drive, question, wrong[room], bytes_of(reader, room, FIRSTS), reader_found(reader, room),
                     reader->rooms[room].length);
}

#define TOLD_AS(name)                                                \
    struct lpmag_##name reader_##name(struct reader *reader)         \
    {                                                                \
        struct lpmag_##name told;                                    \
        memcpy(&told, struct_of(reader, TOLD, FIRSTS), sizeof told); \
        return told;                                                 \
    }
TOLD_AS(report)
TOLD_AS(fed)
TOLD_AS(closed)

/* ---- the clock -------------------------------------------------------- */

static bool begins_turn(const struct lpmag_state *before, const struct lpmag_state *after)
{
    return before->any && after->last / ROUND > before->last / ROUND;
}

/* What a good record meets that comes after others. */
static void count_jump(struct drive *drive, const struct lpmag_state *state, uint32_t own, uint8_t answer)
{
    static const uint64_t edges[JUMPS] = {
        [NEXT_COUNT] = 1,          [BEFORE_FARTHEST] = 8388606, [FARTHEST] = 8388607,
        [PAST_FARTHEST] = 8388608, [TWO_PAST] = 8388609,        [ONE_LATE] = 16777215,
    };
    bool below = own < state->last % ROUND;
    for (enum jump jump = 0; jump < JUMPS; jump++)
        drive->jumps[jump][below] += (own - state->last) % ROUND == edges[jump];
    drive->late_past_turns += answer == 12 && below && state->last / ROUND == 4095;
}

/* ---- what was closed -------------------------------------------------- */

static void count_closed(struct drive *drive, enum call call, const struct lpmag_closed *closed)
{
    unsigned snapshots = closed->first_snapshot.closed + closed->second_snapshot.closed;
    drive->closed[call][closed->major_closed][closed->accumulation_closed][snapshots]++;
}

/* ---- step and finish -------------------------------------------------- */

void compare_step(struct drive *drive, struct reader *reader, const struct input *input, uint8_t expected)
{
    const uint8_t *record = lend_bytes(&drive->random, input->record, input->length);
    struct question question = ask(drive, reader, STEP, record, input->length, sizeof(struct lpmag_report));
    uint8_t first = lpmag_step(LENT(reader, FIRSTS), record, input->length);
    uint8_t second = second_step(LENT(reader, SECONDS), record, input->length);
    same_calls(drive, &question, reader, first, second, input->record);
    expect_answer(drive, &question, first, expected);
    drive->steps[first]++;
    if (reader->asked.any && (first == LPMAG_OK || first >= 12))
        count_jump(drive, &reader->asked, input->content.count, first);

    if (first == LPMAG_OK) {
        drive->fresh[BY_STEP] += !reader->state.any;
        struct lpmag_report report = expected_report(drive, reader, input);
        drive->turned[BY_STEP] += begins_turn(&reader->asked, &reader->state);
        expect_bytes(drive, &question, "the report isn't what it has to be", struct_of(reader, TOLD, FIRSTS),
                     &report, sizeof report);
        expect_rooms(drive, &question, reader);
        drive->fates[report.gap]++;
        count_closed(drive, BY_STEP, &report.closed);
    }
    drive->state = NULL;
}

void compare_finish(struct drive *drive, struct reader *reader, uint8_t expected)
{
    struct question question = ask(drive, reader, FINISH, NULL, 0, sizeof(struct lpmag_closed));
    uint8_t first = lpmag_finish(LENT(reader, FIRSTS));
    uint8_t second = second_finish(LENT(reader, SECONDS));
    same_calls(drive, &question, reader, first, second, NULL);
    expect_answer(drive, &question, first, expected);
    drive->finishes[first]++;

    if (first == LPMAG_OK) {
        drive->fresh[BY_FINISH] += !reader->state.any;
        struct lpmag_closed closed = expected_closed(reader);
        expect_bytes(drive, &question, "what it closed isn't what it has to be",
                     struct_of(reader, TOLD, FIRSTS), &closed, sizeof closed);
        expect_rooms(drive, &question, reader);
        count_closed(drive, BY_FINISH, &closed);
    }
    drive->state = NULL;
}

/* ---- feed ------------------------------------------------------------- */

static bool sizes_right(const struct reader *reader)
{
    for (enum lent_room room = 0; room < SIZED; room++)
        if (reader_size(reader, room) != right_size(room))
            return false;
    return true;
}

static enum given given(size_t records)
{
    return records == 0 ? NO_RECORD : records == 1 ? ONE_RECORD : MANY_RECORDS;
}

/* Both have the same state, and rooms of the same content. */
static void copy_reader(struct reader *to, const struct reader *from)
{
    to->state = from->state;
    for (enum lent_room room = 0; room < TOLD; room++) {
        const struct rooms *rooms = &from->rooms[room];
        struct rooms *copy = &to->rooms[room];
        copy->name = rooms->name;
        copy->at = rooms->at;
        copy->length = rooms->length;
        copy->null = rooms->null;
        memcpy(copy->found.bytes, rooms->found.bytes, rooms_whole(rooms));
        memcpy(copy->first.bytes, rooms->first.bytes, rooms_whole(rooms));
        memcpy(copy->second.bytes, rooms->second.bytes, rooms_whole(rooms));
    }
}

/* Steps with these records, one by one, until one is refused or closes something. */
static struct lpmag_fed step_through(struct drive *drive, struct reader *reader, const struct row *row,
                                     size_t from, size_t records)
{
    struct lpmag_fed fed = {0};
    bool tells = false;
    for (size_t i = from; i < from + records && !tells; i++) {
        compare_step(drive, reader, &row->inputs[i], row->answers[i]);
        fed.taken += LPMAG_RECORD;
        fed.answer = row->answers[i];
        if (fed.answer == LPMAG_OK)
            fed.closed = reader_report(reader).closed;
        tells = fed.answer != LPMAG_OK || closes(&fed.closed);
    }
    return fed;
}

/* The rooms are found as another reader's, which was handed the same. */
static void take_over(struct reader *reader, struct reader *other)
{
    reader->state = other->state;
    for (enum lent_room room = 0; room < TOLD; room++)
        memcpy(reader_found(reader, room), reader_found(other, room), reader->rooms[room].length);
}

static void count_fed(struct drive *drive, const struct lpmag_fed *fed, size_t length)
{
    size_t left = length - fed->taken;
    drive->fed_taken[given(fed->taken / LPMAG_RECORD)]++;
    drive->fed_left[left % LPMAG_RECORD != 0][given(left / LPMAG_RECORD)]++;
    if (fed->taken > 0)
        drive->fed[fed->answer]++;
    if (fed->taken > 0 && fed->answer == LPMAG_OK)
        count_closed(drive, BY_FEED, &fed->closed);
    if (length < sizeof drive->fed_lengths / sizeof drive->fed_lengths[0])
        drive->fed_lengths[length]++;
}

size_t compare_feed(struct drive *drive, struct reader *reader, const struct row *row, size_t from,
                    size_t length)
{
    static struct reader stepped;
    bool broken = clauses_broken(&reader->state) != 0;
    bool refused = broken || !sizes_right(reader);
    struct lpmag_fed fed = {0};
    if (!refused) {
        copy_reader(&stepped, reader);
        fed = step_through(drive, &stepped, row, from, length / LPMAG_RECORD);
    }

    const uint8_t *made = row->bytes + LPMAG_RECORD * from;
    const uint8_t *bytes = lend_bytes(&drive->random, made, length);
    struct question question = ask(drive, reader, FEED, bytes, length, sizeof(struct lpmag_fed));
    uint8_t first = lpmag_feed(LENT(reader, FIRSTS), bytes, length);
    uint8_t second = second_feed(LENT(reader, SECONDS), bytes, length);
    same_calls(drive, &question, reader, first, second, made);
    expect_answer(drive, &question, first, refused ? 1 : LPMAG_OK);
    drive->feeds[first]++;

    if (refused) {
        drive->fed_broken[broken][given(length / LPMAG_RECORD)]++;
    } else {
        drive->fresh[BY_FEED] += !reader->state.any;
        expect_bytes(drive, &question, "what was fed isn't what comes of steps, one by one",
                     struct_of(reader, TOLD, FIRSTS), &fed, sizeof fed);
        take_over(reader, &stepped);
        drive->turned[BY_FEED] += begins_turn(&reader->asked, &reader->state);
        expect_rooms(drive, &question, reader);
        count_fed(drive, &fed, length);
    }
    drive->state = NULL;
    return fed.taken / LPMAG_RECORD;
}

void compare_fed_whole(struct drive *drive, struct reader *reader, const struct input *input, uint8_t answer)
{
    static struct row row;
    row_clear(&row);
    row_add(&row, input, answer);
    compare_feed(drive, reader, &row, 0, LPMAG_RECORD);
}

void compare_feed_of(struct drive *drive, struct reader *reader, const struct input *input, uint8_t answer)
{
    static struct row row;
    struct random *random = &drive->random;
    row_clear(&row);
    row_add(&row, input, answer);
    row_end(random, &row, random_below(random, LPMAG_RECORD));
    bool whole = !random_once_in(random, 4);
    compare_feed(drive, reader, &row, 0, whole ? row_left(&row, 0) : row.tail);
}

void compare_taken(struct drive *drive, struct reader *reader, const struct input *input, uint8_t answer,
                   uint32_t fed_once_in)
{
    if (input->length == LPMAG_RECORD && random_once_in(&drive->random, fed_once_in))
        compare_feed_of(drive, reader, input, answer);
    else
        compare_step(drive, reader, input, answer);
}

void compare_feed_refused(struct drive *drive, struct reader *reader)
{
    static struct row row;
    struct random *random = &drive->random;
    struct input input;
    uint32_t records = random_below(random, 4);
    uint64_t next = reader->state.last < COUNTS - 4 ? reader->state.last + 1 : 0;
    row_clear(&row);
    for (uint32_t i = 0; i < records; i++) {
        input_make(random, &input, next + i, (uint8_t)random_below(random, TYPES));
        row_add(&row, &input, LPMAG_OK);
    }
    row_end(random, &row, random_once_in(random, 2) ? 0 : random_below(random, LPMAG_RECORD));
    compare_feed(drive, reader, &row, 0, row_left(&row, 0));
}
