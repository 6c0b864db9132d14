/* The clock that goes round (02, request 1): which records are later and in which turn, by
 * numbers worked out by hand; and the way up to the last turn and to its end. */
#include "driver/calls.h"
#include "driver/streams.h"
#include "subjects.h"

/* ---- by hand ---------------------------------------------------------- */

/* After an accepted record of a turn and own count, one of another own count; and where that is
 * accepted, its turn. */
struct example {
    uint32_t turn, last;
    uint32_t count;
    uint8_t answer;
    uint32_t its_turn;
};

static const struct example examples[] = {
    /* The restart; half a turn on, and one past it; records delayed before it and after it. */
    {0, 16777215, 0, LPMAG_OK, 1},
    {0, 16777215, 8388606, LPMAG_OK, 1},
    {0, 16777215, 8388607, 12, 0},
    {0, 16777215, 16777210, 12, 0},
    {0, 16777215, 16777215, 12, 0},
    {1, 0, 16777215, 12, 0},
    {1, 2, 16777214, 12, 0},
    {1, 2, 0, 12, 0},
    {1, 2, 3, LPMAG_OK, 1},
    {7, 16777214, 16777215, LPMAG_OK, 7},
    {7, 16777214, 0, LPMAG_OK, 8},

    /* 8,388,606 to 8,388,609 counts on, in the same turn, about its end and in the next. */
    {0, 0, 8388606, LPMAG_OK, 0},
    {0, 0, 8388607, LPMAG_OK, 0},
    {0, 0, 8388608, 12, 0},
    {0, 0, 8388609, 12, 0},
    {3, 8388607, 16777213, LPMAG_OK, 3},
    {3, 8388607, 16777214, LPMAG_OK, 3},
    {3, 8388607, 16777215, 12, 0},
    {3, 8388607, 0, 12, 0},
    {3, 8388608, 16777215, LPMAG_OK, 3},
    {3, 8388608, 0, 12, 0},
    {3, 8388608, 1, 12, 0},
    {3, 8388609, 16777215, LPMAG_OK, 3},
    {3, 8388609, 0, LPMAG_OK, 4},
    {3, 8388609, 1, 12, 0},
    {3, 8388609, 2, 12, 0},
    {3, 10000000, 1611390, LPMAG_OK, 4},
    {3, 10000000, 1611391, LPMAG_OK, 4},
    {3, 10000000, 1611392, 12, 0},
    {3, 10000000, 1611393, 12, 0},

    /* The last turn: into it, in it and past it. 12 comes before 14. */
    {4094, 16777215, 0, LPMAG_OK, 4095},
    {4094, 16777215, 8388606, LPMAG_OK, 4095},
    {4094, 16777215, 8388607, 12, 0},
    {4095, 5, 4, 12, 0},
    {4095, 5, 5, 12, 0},
    {4095, 5, 6, LPMAG_OK, 4095},
    {4095, 5, 8388612, LPMAG_OK, 4095},
    {4095, 5, 8388613, 12, 0},
    {4095, 8388608, 16777215, LPMAG_OK, 4095},
    {4095, 8388608, 0, 12, 0},
    {4095, 8388609, 16777215, LPMAG_OK, 4095},
    {4095, 8388609, 0, 14, 0},
    {4095, 8388609, 1, 12, 0},
    {4095, 16777215, 0, 14, 0},
    {4095, 16777215, 8388606, 14, 0},
    {4095, 16777215, 8388607, 12, 0},
    {4095, 16777215, 16777214, 12, 0},
    {4095, 16777215, 16777215, 12, 0},
};

/* The full count has to be as told, in the state and, divided by 16, in the major frame that
 * finish closes; the fields have the record's own. */
static void expect_full(struct drive *drive, struct reader *reader, enum function function, uint32_t turn,
                        uint32_t count)
{
    struct question question = {function, NULL, 0, {{"turn", turn}, {"count", count}}};
    uint64_t full = 16777216 * (uint64_t)turn + count;
    expect_answer(drive, &question, reader->state.last, full);
    if (function == STEP)
        expect_answer(drive, &question, reader_report(reader).fields.count, count);
    compare_finish(drive, reader, LPMAG_OK);
    struct lpmag_closed closed = reader_closed(reader);
    expect_answer(drive, &question, closed.major.number, full / 16);
    if (closed.accumulation_closed)
        expect_answer(drive, &question, closed.accumulation_first, full);
    if (closed.first_snapshot.closed)
        expect_answer(drive, &question, closed.first_snapshot.first, full);
    expect_answer(drive, &question, reader->state.last, full);
}

static void compare_example(struct drive *drive, const struct lpmag_state *state, uint32_t count,
                            uint8_t answer, uint32_t its_turn)
{
    static struct reader reader;
    struct random *random = &drive->random;
    struct input input;
    input_make(random, &input, count, any_type(random));
    reader_make(random, &reader, state);
    compare_step(drive, &reader, &input, answer);
    if (answer == LPMAG_OK)
        expect_full(drive, &reader, STEP, its_turn, count);

    reader_make(random, &reader, state);
    compare_fed_whole(drive, &reader, &input, answer);
    if (answer == LPMAG_OK)
        expect_full(drive, &reader, FEED, its_turn, count);
}

static void compare_examples(struct drive *drive)
{
    static const uint32_t firsts[] = {0, 1, 8388607, 8388608, 16777215};
    begin(drive, "which records are later, and in which turn, by hand");
    for (unsigned i = 0; i < 8; i++) {
        for (size_t j = 0; j < sizeof examples / sizeof examples[0]; j++) {
            const struct example *example = &examples[j];
            struct lpmag_state state = {.last = 16777216 * (uint64_t)example->turn + example->last, .any = 1};
            compare_example(drive, &state, example->count, example->answer, example->its_turn);
        }
        for (size_t j = 0; j < sizeof firsts / sizeof firsts[0]; j++)
            compare_example(drive, &fresh, firsts[j], LPMAG_OK, 0);
    }
}

/* ---- up to the last turn ---------------------------------------------- */

/* Records that come in, and the full count of the last that has to be accepted. */
struct way {
    struct row row;
    uint64_t last;
};

static void add_record(struct random *random, struct way *way, uint64_t count, uint8_t answer)
{
    struct input input;
    input_make(random, &input, count, any_type(random));
    row_add(&way->row, &input, answer);
    if (answer == LPMAG_OK)
        way->last = count;
}

/* Steps or feeds what came in so far. */
static void compare_way(struct drive *drive, struct reader *reader, struct way *way, bool stepped)
{
    struct question question = {stepped ? STEP : FEED, NULL, 0, {{"on the way to count", way->last}}};
    struct row *row = &way->row;
    for (size_t taken = 0; taken < row->count;)
        if (stepped) {
            compare_step(drive, reader, &row->inputs[taken], row->answers[taken]);
            taken++;
        } else {
            taken += compare_feed(drive, reader, row, taken, row_part(&drive->random, row, taken));
        }
    expect_answer(drive, &question, reader->state.last, way->last);
    row_clear(row);
}

/* From the fresh state by jumps up to the last count of all, late records between: some 8,200
 * have to be accepted. Then only late ones and ones past the last turn are left. */
static void compare_climb(struct drive *drive, bool stepped)
{
    static struct reader reader;
    static struct way way;
    struct random *random = &drive->random;
    row_clear(&way.row);
    reader_make(random, &reader, &fresh);
    add_record(random, &way, stream_first(random), LPMAG_OK);
    while (way.last < COUNTS - 1) {
        uint64_t left = COUNTS - 1 - way.last;
        uint64_t jump = AHEAD - (random_once_in(random, 8) ? random_below(random, 100000) : 0);
        add_record(random, &way, way.last + (jump < left ? jump : left), LPMAG_OK);
        if (random_once_in(random, 8))
            add_record(random, &way, stream_late(random, way.last), 12);
        if (stream_can_pass(way.last))
            add_record(random, &way, stream_past(random, way.last), 14);
        if (way.row.count > MOST_IN_ROW - 4)
            compare_way(drive, &reader, &way, stepped);
    }
    for (unsigned i = 0; i < 200; i++) {
        uint64_t own =
            random_once_in(random, 4) ? AHEAD - 2 + random_below(random, 4) : random_to(random, ROUND - 1);
        add_record(random, &way, own, own < AHEAD ? 14 : 12);
    }
    compare_way(drive, &reader, &way, stepped);
    compare_finish(drive, &reader, LPMAG_OK);
}

void drive_turns(struct drive *drive)
{
    compare_examples(drive);
    begin(drive, "from the fresh state to the end of the last turn");
    compare_climb(drive, true);
    compare_climb(drive, false);
}
