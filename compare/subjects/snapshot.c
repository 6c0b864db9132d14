/* The questions about a finished snapshot: its raw bytes, 3D, pitch angle data, Total, Rate and the
 * magnetic angles. */
#include "base/text.h"
#include "driver/asked.h"
#include "second/snapshot.h"
#include "subjects.h"

#include <system.h>

/* ---- what is expected ------------------------------------------------- */

/* Where things stand (02, request 2: "header 4, 3D 1,320, pitch angle 240, angles 4, table 72"). */
enum { TOTAL_AT = 2, RATE_AT = 3, THREE_D_AT = 4, PITCH_AT = 1324, MAG_ANGLES_AT = 1564 };
enum { ENERGIES = 15, PITCH_ANGLES = 16, MAG_ANGLES = 4 };

/* ---- one question ----------------------------------------------------- */

static void compare_byte(struct drive *drive, const struct asked *asked, size_t place)
{
    struct question question = {
        SNAPSHOT_BYTE, asked->bytes, asked->length, {{"held", asked->held}, {"place", place}}};
    struct rooms rooms;
    rooms_make(&rooms, &drive->random, 1);
    uint8_t first = lpmag_snapshot_byte(ASKED_32(asked), place, room_of_bytes(&rooms, &rooms.first));
    uint8_t second = second_snapshot_byte(ASKED_32(asked), place, room_of_bytes(&rooms, &rooms.second));
    compare_byte_at(drive, &question, asked, &rooms, first, second, place);
    if (first == LPMAG_OK)
        drive->bytes_given[place]++;
    else if (first == LPMAG_ABSENT)
        drive->bytes_absent[place]++;
}

static void compare_angle(struct drive *drive, const struct asked *asked, size_t number)
{
    struct question question = {
        SNAPSHOT_ANGLE, asked->bytes, asked->length, {{"held", asked->held}, {"number", number}}};
    struct rooms rooms;
    rooms_make(&rooms, &drive->random, 1);
    uint8_t first = lpmag_snapshot_angle(ASKED_32(asked), number, room_of_bytes(&rooms, &rooms.first));
    uint8_t second = second_snapshot_angle(ASKED_32(asked), number, room_of_bytes(&rooms, &rooms.second));
    compare_byte_at(drive, &question, asked, &rooms, first, second,
                    number < MAG_ANGLES ? MAG_ANGLES_AT + number : NO_PLACE);
}

/* A table of counts, each by its row and its angle. */
typedef uint8_t table_question(const uint8_t *, size_t, uint32_t, size_t, size_t, uint64_t *, uint64_t *);
struct table {
    enum function function;
    const char *row;
    size_t at, rows, angles;
    table_question *first, *second;
};

static const struct table three_d = {
    SNAPSHOT_THREE_D,       "step", THREE_D_AT, STEPS, STEP_ANGLES, lpmag_snapshot_three_d,
    second_snapshot_three_d};
static const struct table pitch = {
    SNAPSHOT_PITCH, "energy", PITCH_AT, ENERGIES, PITCH_ANGLES, lpmag_snapshot_pitch, second_snapshot_pitch};

static void compare_in(struct drive *drive, const struct asked *asked, const struct table *table, size_t row,
                       size_t angle)
{
    struct question question = {table->function,
                                asked->bytes,
                                asked->length,
                                {{"held", asked->held}, {table->row, row}, {"angle", angle}}};
    struct ranges ranges;
    ranges_make(&ranges, &drive->random);
    uint8_t first = table->first(ASKED_32(asked), row, angle, RANGE_OF(ranges.first));
    uint8_t second = table->second(ASKED_32(asked), row, angle, RANGE_OF(ranges.second));
    size_t place =
        row < table->rows && angle < table->angles ? table->at + table->angles * row + angle : NO_PLACE;
    compare_counts(drive, &question, &ranges, first, second, expected_counts_at(asked, place, 1));
}

/* A number of the header. */
typedef uint8_t header_question(const uint8_t *, size_t, uint32_t, uint64_t *, uint64_t *);

static void compare_header(struct drive *drive, const struct asked *asked, enum function function, size_t at,
                           header_question *ask_first, header_question *ask_second)
{
    struct question question = {function, asked->bytes, asked->length, {{"held", asked->held}}};
    struct ranges ranges;
    ranges_make(&ranges, &drive->random);
    uint8_t first = ask_first(ASKED_32(asked), RANGE_OF(ranges.first));
    uint8_t second = ask_second(ASKED_32(asked), RANGE_OF(ranges.second));
    compare_counts(drive, &question, &ranges, first, second, expected_counts_at(asked, at, 16));
}

static void compare_total_and_rate(struct drive *drive, const struct asked *asked)
{
    compare_header(drive, asked, SNAPSHOT_TOTAL, TOTAL_AT, lpmag_snapshot_total, second_snapshot_total);
    compare_header(drive, asked, SNAPSHOT_RATE, RATE_AT, lpmag_snapshot_rate, second_snapshot_rate);
}

/* ---- the questions ---------------------------------------------------- */

static void ask_every_byte(struct drive *drive, const struct asked *asked)
{
    static size_t numbers[MOST_NUMBERS];
    size_t count = make_numbers(1700, numbers);
    for (size_t i = 0; i < count; i++)
        compare_byte(drive, asked, numbers[i]);
}

/* Up to past the last row and angle of a table, and at huge ones. */
static void ask_every_count_in(struct drive *drive, const struct asked *asked, const struct table *table,
                               size_t last_angle)
{
    static size_t rows[MOST_NUMBERS], angles[MOST_NUMBERS];
    size_t row_count = make_numbers(16, rows);
    size_t angle_count = make_numbers(last_angle, angles);
    for (size_t i = 0; i < row_count; i++)
        for (size_t j = 0; j < angle_count; j++)
            compare_in(drive, asked, table, rows[i], angles[j]);
}

static void ask_every_count(struct drive *drive, const struct asked *asked)
{
    ask_every_count_in(drive, asked, &three_d, 90);
    ask_every_count_in(drive, asked, &pitch, 17);
}

static void ask_every_angle(struct drive *drive, const struct asked *asked)
{
    static size_t numbers[MOST_NUMBERS];
    size_t count = make_numbers(8, numbers);
    for (size_t i = 0; i < count; i++)
        compare_angle(drive, asked, numbers[i]);
}

/* Every code at every place; the pre-scale state, header byte 1, goes through all its values too, and
 * nothing comes of it. */
static void compare_every_code(struct drive *drive)
{
    uint8_t made[LPMAG_SNAPSHOT];
    begin(drive, "every code at every place of a snapshot's 3D and pitch angle data");
    for (unsigned code = 0; code < 256; code++) {
        for (size_t place = 0; place < sizeof made; place++)
            made[place] = (uint8_t)(code + place);
        struct asked asked = lend_asked(drive, &snapshot, made, sizeof made, ALL_PACKETS);
        for (size_t step = 0; step < STEPS; step++)
            for (size_t angle = 0; angle < STEP_ANGLES; angle++)
                compare_in(drive, &asked, &three_d, step, angle);
        for (size_t energy = 0; energy < ENERGIES; energy++)
            for (size_t angle = 0; angle < PITCH_ANGLES; angle++)
                compare_in(drive, &asked, &pitch, energy, angle);
        expect_unchanged(drive, SNAPSHOT_PITCH, &asked);
    }
}

static void compare_every_total_and_rate(struct drive *drive)
{
    uint64_t marks[MOST_MARKS];
    uint8_t made[LPMAG_SNAPSHOT];
    begin(drive, "Total and Rate of a snapshot of every code, with every held mark");
    make_marks(&drive->random, &snapshot, marks);
    for (unsigned code = 0; code < 256; code++) {
        random_fill(&drive->random, made, sizeof made);
        made[TOTAL_AT] = (uint8_t)code;
        made[RATE_AT] = (uint8_t)(code * 7 + 3);
        for (size_t i = 0; i < snapshot.marks; i++) {
            struct asked asked = lend_asked(drive, &snapshot, made, sizeof made, marks[i]);
            compare_total_and_rate(drive, &asked);
        }
    }
}

static void ask_some(struct drive *drive, const struct asked *asked)
{
    compare_total_and_rate(drive, asked);
    for (size_t i = 0; i <= STEPS; i++) {
        compare_byte(drive, asked, random_below(&drive->random, LPMAG_SNAPSHOT + 8));
        compare_in(drive, asked, &three_d, i, random_below(&drive->random, STEP_ANGLES + 1));
        compare_in(drive, asked, &pitch, i, random_below(&drive->random, PITCH_ANGLES + 1));
        compare_angle(drive, asked, i % 5);
    }
}

void drive_snapshot(struct drive *drive)
{
    if (!second_snapshot_whole())
        fail(1, "compare: the second's table of 000, section 2.4.1, doesn't give 82 bytes to a packet and "
                "each of the 1,640 once");
    begin(drive, "bytes of a snapshot at every place, past the last and at huge ones, with every held mark");
    ask_with_marks(drive, &snapshot, SNAPSHOT_BYTE, ask_every_byte);
    begin(drive, "3D and pitch angle data of a snapshot at every place, past the last and at huge ones, "
                 "with every held mark");
    ask_with_marks(drive, &snapshot, SNAPSHOT_PITCH, ask_every_count);
    compare_every_code(drive);
    compare_every_total_and_rate(drive);
    begin(drive, "magnetic angles of a snapshot, past the last and at huge ones, with every held mark");
    for (unsigned i = 0; i < 4; i++)
        ask_with_marks(drive, &snapshot, SNAPSHOT_ANGLE, ask_every_angle);
    begin(drive, "the questions about snapshots of many sizes");
    ask_of_sizes(drive, &snapshot, SNAPSHOT_ANGLE, ask_some);
}
