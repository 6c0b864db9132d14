/* The reader on bursts (02, request 2): which packets stand in one snapshot, by examples worked out by
 * hand; every two packets in one frame and in two; every second type. */
#include "driver/calls.h"
#include "driver/states.h"
#include "driver/streams.h"
#include "subjects.h"

/* ---- by hand ---------------------------------------------------------- */

/* What comes in, and the snapshots that come out of it by the words of 02, in their order, each by
 * the types of its packets. What comes in is a word for each count:
 *   36      a half burst with a packet of that type; 36! has bit 6
 *   36+37!  a full burst
 *   r, d    a real-time frame, a memory dump
 *   -       a count that is missing
 *   x       a count at which a full burst came whose second type is none, and nothing else
 *   a       a refused record beside what comes: it takes no count
 *   f       a finish, likewise */
struct example {
    const char *in;
    const char *out;
};

static const struct example examples[] = {
    /* "its type is above the last one held" */
    {"36", "36"},
    {"36 37 38", "36 37 38"},
    {"36 38 40 55", "36 38 40 55"},
    {"36 36", "36 / 36"},
    {"37 36", "37 / 36"},
    {"55 36", "55 / 36"},
    {"36 37 38 37 38", "36 37 38 / 37 38"},

    /* "every count since was accepted" */
    {"36 - 37", "36 / 37"},
    {"36 x 37", "36 / 37"},
    {"36 a 37", "36 37"},
    {"36 r d 37", "36 37"},
    {"36 r - 37", "36 / 37"},
    {"36 - r 37", "36 / 37"},
    {"- 36 37", "36 37"},
    {"36 - 57 37 38", "36 / 37 38"},

    /* "bit 6 was set in no burst packet's type byte since", of those that are none of a snapshot */
    {"36 56 57 62 37", "36 37"},
    {"36 56! 37", "36 / 37"},
    {"36 57! 37", "36 / 37"},
    {"36 62! 37", "36 / 37"},
    {"36 57! 57 r 37", "36 / 37"},
    {"57! 56! 62! 36 37", "36 37"},
    {"56 57 62!", ""},

    /* "nor in its own"; its own isn't since */
    {"36 37! 38", "36 / 37 38"},
    {"36! 37", "36 37"},
    {"36! 37! 38!", "36 / 37 / 38"},

    /* Bits of real-time frames and memory dumps are none of a burst packet's; they come with any. */
    {"36 r r r r r r 37", "36 37"},
    {"36 d d d d d d 37", "36 37"},

    /* Two packets in a frame, and no count between them. */
    {"36+37", "36 37"},
    {"36+36", "36 / 36"},
    {"40+39", "40 / 39"},
    {"39+40", "39 40"},
    {"36 37+38 39", "36 37 38 39"},
    {"36+37 38+39", "36 37 38 39"},
    {"36+37 - 38+39", "36 37 / 38 39"},
    {"41 40+39", "41 / 40 / 39"},
    {"38 40+39 40", "38 40 / 39 40"},
    {"38 - 40+39 40", "38 / 40 / 39 40"},
    {"36 37!+38 39", "36 / 37 38 39"},
    {"36 37+38! 39", "36 37 / 38 39"},
    {"36 37!+38! 39", "36 / 37 / 38 39"},
    {"36 57+37", "36 37"},
    {"36 57!+37", "36 / 37"},
    {"36 57!+37 38", "36 / 37 38"},
    {"36 37+57! 38", "36 37 / 38"},
    {"36 37+56 38", "36 37 38"},
    {"36 56!+57 37", "36 / 37"},
    {"36 62+62! 37", "36 / 37"},
    {"57!+36 37+38", "36 37 38"},

    /* "finish closes the open one" */
    {"36 f 37", "36 / 37"},
    {"36+37 f f 38+39", "36 37 / 38 39"},
    {"f 36", "36"},
};

/* The snapshots of an example that are still to come. */
struct coming {
    const struct example *example;
    const char *rest;
};

static bool pass(const char **text, const char *word)
{
    const char *rest = *text;
    for (; *word != '\0'; word++, rest++)
        if (*rest != *word)
            return false;
    *text = rest;
    return true;
}

static uint8_t read_type(const char **text)
{
    uint8_t type = (uint8_t)(10 * ((*text)[0] - '0') + ((*text)[1] - '0'));
    *text += 2;
    return type;
}

/* A type and maybe bit 6. */
static uint8_t read_code(const char **text)
{
    uint8_t type = read_type(text);
    return pass(text, "!") ? type | BIT_6 : type;
}

/* The marks of the next snapshot; 0 after the last. */
static uint32_t next_held(struct coming *coming)
{
    uint32_t held = 0;
    while (*coming->rest != '\0' && !pass(&coming->rest, " / ")) {
        pass(&coming->rest, " ");
        held |= (uint32_t)1 << (read_type(&coming->rest) - FIRST_PACKET);
    }
    return held;
}

static void expect_snapshot(struct drive *drive, enum function function, struct coming *coming,
                            const struct lpmag_closed_snapshot *closed)
{
    struct question question = {function, NULL, 0, {{coming->example->in, 0}}};
    if (closed->closed)
        expect_answer(drive, &question, closed->held, next_held(coming));
}

static void expect_snapshots(struct drive *drive, enum function function, struct coming *coming,
                             struct lpmag_closed closed)
{
    expect_snapshot(drive, function, coming, &closed.first_snapshot);
    expect_snapshot(drive, function, coming, &closed.second_snapshot);
}

/* The record of a word; false where none comes. */
static bool make_word(struct random *random, const char **text, uint64_t count, struct input *input)
{
    if (pass(text, "-"))
        return false;
    if (pass(text, "r")) {
        input_make(random, input, count, (uint8_t)random_below(random, TYPES));
    } else if (pass(text, "d")) {
        input_make(random, input, count, 63);
    } else {
        uint8_t code = read_code(text);
        bool full = pass(text, "+");
        uint8_t second_code = full ? read_code(text) : 0;
        input_make_coded(random, input, count, full ? code | TOP_BIT : code, second_code);
    }
    return true;
}

static void compare_refused(struct drive *drive, struct reader *reader, uint64_t count)
{
    struct input input;
    input_make_coded(&drive->random, &input, count, TOP_BIT | burst_type(random_below(&drive->random, 20)),
                     63);
    compare_step(drive, reader, &input, 11);
}

static void compare_example(struct drive *drive, const struct example *example, uint64_t count, bool fed)
{
    static struct reader reader;
    struct coming coming = {example, example->out};
    struct input input;
    reader_make(&drive->random, &reader, &fresh);
    for (const char *text = example->in; *text != '\0'; pass(&text, " ")) {
        if (pass(&text, "f")) {
            compare_finish(drive, &reader, LPMAG_OK);
            expect_snapshots(drive, FINISH, &coming, reader_closed(&reader));
        } else if (pass(&text, "a")) {
            compare_refused(drive, &reader, count);
        } else if (pass(&text, "x")) {
            compare_refused(drive, &reader, count++);
        } else if (make_word(&drive->random, &text, count++, &input)) {
            if (fed) {
                compare_fed_whole(drive, &reader, &input, LPMAG_OK);
                expect_snapshots(drive, FEED, &coming, reader_fed(&reader).closed);
            } else {
                compare_step(drive, &reader, &input, LPMAG_OK);
                expect_snapshots(drive, STEP, &coming, reader_report(&reader).closed);
            }
        }
    }
    compare_finish(drive, &reader, LPMAG_OK);
    expect_snapshots(drive, FINISH, &coming, reader_closed(&reader));
    struct question question = {FINISH, NULL, 0, {{example->in, 0}}};
    expect_answer(drive, &question, *coming.rest == '\0', true);
}

/* In one turn and about its end. */
static void compare_examples(struct drive *drive)
{
    begin(drive, "which packets stand in one snapshot, by hand");
    for (unsigned i = 0; i < 40; i++)
        for (size_t j = 0; j < sizeof examples / sizeof examples[0]; j++)
            compare_example(drive, &examples[j],
                            i % 2 == 0 ? ROUND - random_between(&drive->random, 1, 6)
                                       : random_to(&drive->random, ROUND - 1),
                            i % 4 < 2);
}

/* ---- every two packets ------------------------------------------------ */

/* What comes before them: nothing; a packet, the lowest or the highest; one and a missing count; one
 * and bit 6. */
enum { NONE_OPEN, LOWEST_OPEN, HIGHEST_OPEN, COUNT_MISSING, BIT_6_SINCE, BEFORE };

static void step_coded(struct drive *drive, struct reader *reader, uint64_t count, uint8_t code,
                       uint8_t second_code)
{
    struct input input;
    input_make_coded(&drive->random, &input, count, code, second_code);
    compare_step(drive, reader, &input, LPMAG_OK);
}

/* Answers the next count. */
static uint64_t step_before(struct drive *drive, struct reader *reader, uint64_t count, unsigned before)
{
    if (before == NONE_OPEN)
        return count;
    step_coded(drive, reader, count++, before == HIGHEST_OPEN ? 55 : 36, 0);
    if (before == BIT_6_SINCE)
        step_coded(drive, reader, count++, BIT_6 | 57, 0);
    return before == COUNT_MISSING ? count + 1 : count;
}

static void compare_in_one(struct drive *drive, uint8_t one, uint8_t other)
{
    static struct reader reader;
    for (unsigned before = 0; before < BEFORE; before++)
        for (unsigned bits = 0; bits < 8; bits++) {
            uint64_t count = stream_first(&drive->random);
            reader_make(&drive->random, &reader, &fresh);
            count = step_before(drive, &reader, count, before);
            step_coded(drive, &reader, count, (uint8_t)(TOP_BIT | (bits % 2 << 6) | one),
                       (uint8_t)(bits / 2 << 6) | other);
            compare_finish(drive, &reader, LPMAG_OK);
        }
}

/* What comes between the two frames. */
enum { NOTHING, MISSING, REAL_TIME, DUMP, MARKER, NEW_BURST, SECOND_SAMPLE, NEW_FILL, BETWEEN };

static uint64_t step_between(struct drive *drive, struct reader *reader, uint64_t count, unsigned between)
{
    static const uint8_t codes[BETWEEN] = {
        [MARKER] = 57, [NEW_BURST] = BIT_6 | 57, [SECOND_SAMPLE] = BIT_6 | 56, [NEW_FILL] = BIT_6 | 62};
    struct input input;
    if (between == NOTHING)
        return count;
    if (between == REAL_TIME || between == DUMP) {
        input_make(&drive->random, &input, count,
                   between == DUMP ? 63 : (uint8_t)random_below(&drive->random, TYPES));
        compare_step(drive, reader, &input, LPMAG_OK);
    } else if (between != MISSING) {
        step_coded(drive, reader, count, codes[between], 0);
    }
    return count + 1;
}

/* Each is alone in a half burst, or stands beside fill in a full one, at either place. */
enum { HALF, FIRST_OF_TWO, SECOND_OF_TWO, PLACES };

static void step_placed(struct drive *drive, struct reader *reader, uint64_t count, uint8_t packet,
                        unsigned place)
{
    enum { FILL = 62 };
    if (place == HALF)
        step_coded(drive, reader, count, packet, 0);
    else if (place == FIRST_OF_TWO)
        step_coded(drive, reader, count, packet | TOP_BIT, FILL);
    else
        step_coded(drive, reader, count, FILL | TOP_BIT, packet);
}

static void compare_in_two(struct drive *drive, uint8_t one, uint8_t other)
{
    static struct reader reader;
    for (unsigned between = 0; between < BETWEEN; between++)
        for (unsigned bits = 0; bits < 4; bits++) {
            uint64_t count = stream_first(&drive->random);
            unsigned place = random_below(&drive->random, PLACES);
            reader_make(&drive->random, &reader, &fresh);
            step_placed(drive, &reader, count, (uint8_t)(bits % 2 << 6) | one, place);
            count = step_between(drive, &reader, count + 1, between);
            place = random_below(&drive->random, PLACES);
            step_placed(drive, &reader, count, (uint8_t)(bits / 2 << 6) | other, place);
            compare_finish(drive, &reader, LPMAG_OK);
        }
}

static void compare_every_two(struct drive *drive)
{
    begin(drive, "every two burst packets in one frame, with all bits of their type bytes");
    for (uint32_t one = 0; one < BURST_TYPES; one++)
        for (uint32_t other = 0; other < BURST_TYPES; other++)
            compare_in_one(drive, burst_type(one), burst_type(other));

    begin(drive, "every two burst packets in two frames, with and without something between");
    for (unsigned i = 0; i < 2; i++)
        for (uint32_t one = 0; one < BURST_TYPES; one++)
            for (uint32_t other = 0; other < BURST_TYPES; other++)
                compare_in_two(drive, burst_type(one), burst_type(other));
}

/* ---- every second type ------------------------------------------------ */

/* From any state, with every second type byte; of a half burst every byte 85. */
static void compare_second_codes(struct drive *drive)
{
    static struct reader reader;
    struct random *random = &drive->random;
    struct input input;
    begin(drive, "half and full bursts of every type, with every byte 85");
    for (uint32_t which = 0; which < BURST_TYPES; which++)
        for (unsigned byte = 0; byte < 256; byte++)
            for (unsigned bits = 0; bits < 4; bits++) {
                struct lpmag_state state = any_state_with_a_next(random);
                uint8_t code = (uint8_t)(bits << 6) | burst_type(which);
                input_make_coded(random, &input, state.last + 1, code, (uint8_t)byte);
                input.record[LPMAG_PACKET_AT + 85] = (uint8_t)byte;
                bool refused = code >= TOP_BIT && !is_burst_type(byte % 64);
                reader_make(random, &reader, &state);
                compare_taken(drive, &reader, &input, refused ? 11 : LPMAG_OK, 4);
            }
}

void drive_bursts(struct drive *drive)
{
    compare_examples(drive);
    compare_every_two(drive);
    compare_second_codes(drive);
}
