/* The cells of an accumulation: frames laid into it, and its raw bytes. */
#include "base/text.h"
#include "driver/asked.h"
#include "second/electrons.h"
#include "subjects.h"

/* ---- laying ----------------------------------------------------------- */

/* Science of which all bytes differ, so that one in another's place shows; now and
 * then any science. */
static void make_science(struct random *random, uint8_t *science, size_t length)
{
    uint32_t start = random_below(random, 256);
    uint32_t step = 2 * random_below(random, 128) + 1;
    for (size_t i = 0; i < length; i++)
        science[i] = (uint8_t)(start + step * i);
    if (random_once_in(random, 8))
        random_fill(random, science, length);
}

/* Lays a frame into the rooms as they are, and makes what they have to hold then
 * what they were found with: so another can follow. */
static void compare_laying(struct drive *drive, struct rooms *rooms, uint8_t code, const uint8_t *made,
                           size_t length)
{
    const uint8_t *science = lend_bytes(&drive->random, made, length);
    uint8_t *first_cells = room_of_bytes(rooms, &rooms->first);
    uint8_t *second_cells = room_of_bytes(rooms, &rooms->second);
    struct question question = {LAY_ELECTRONS, science, length, {{"code", code}, {"room", rooms->length}}};
    uint8_t first = lpmag_lay_electrons(code, science, length, first_cells, rooms->length);
    uint8_t second = second_lay_electrons(code, science, length, second_cells, rooms->length);
    same_answer(drive, &question, first, second);
    same_rooms(drive, &question, rooms, first != 0);
    if (length > 0)
        expect_bytes(drive, &question, "the science was changed", science, made, length);

    unsigned type = code & 63;
    bool fits = type < TYPES && length == LPMAG_SCIENCE && rooms->length == LPMAG_CELLS;
    expect_answer(drive, &question, first, fits ? 0 : LPMAG_NO_SUCH_PLACE);
    drive->answers[LAY_ELECTRONS][first]++;
    if (fits) {
        uint8_t *expected = room_of_bytes(rooms, &rooms->found);
        lay_expected(code, made, expected);
        expect_bytes(drive, &question, "the room isn't the cells with the frame laid into them", first_cells,
                     expected, LPMAG_CELLS);
        drive->laid[type]++;
    }
}

static void compare_sizes(struct drive *drive)
{
    static const size_t lengths[] = {0, 1, 82, 83, 84, 168};
    static const size_t rooms_of[] = {0, 1, 83, 2987, 2988, 2996, 2997, 2998, 3072};
    uint8_t science[168];
    struct rooms rooms;
    begin(drive, "frames of every code laid, with science and cells of many sizes");
    for (unsigned code = 0; code < 256; code++)
        for (size_t i = 0; i < sizeof lengths / sizeof lengths[0]; i++)
            for (size_t j = 0; j < sizeof rooms_of / sizeof rooms_of[0]; j++) {
                make_science(&drive->random, science, lengths[i]);
                rooms_make(&rooms, &drive->random, rooms_of[j]);
                compare_laying(drive, &rooms, (uint8_t)code, science, lengths[i]);
            }
}

static void compare_frames(struct drive *drive)
{
    uint8_t science[LPMAG_SCIENCE];
    struct rooms rooms;
    begin(drive, "frames of every code laid into any cells");
    for (unsigned code = 0; code < 256; code++)
        for (unsigned i = 0; i < 100; i++) {
            make_science(&drive->random, science, sizeof science);
            rooms_make(&rooms, &drive->random, LPMAG_CELLS);
            compare_laying(drive, &rooms, (uint8_t)code, science, sizeof science);
        }

    begin(drive, "frames laid over each other");
    for (unsigned i = 0; i < 100; i++) {
        rooms_make(&rooms, &drive->random, LPMAG_CELLS);
        for (unsigned j = 0; j < 100; j++) {
            uint8_t code = (uint8_t)random_next(&drive->random);
            make_science(&drive->random, science, sizeof science);
            compare_laying(drive, &rooms, code, science, sizeof science);
        }
    }
}

/* All 36 types in any order leave nothing of what was found in the cells: each of
 * the 2,988 comes from its frame, and all 72 bits from the codes. */
static void compare_accumulation(struct drive *drive)
{
    uint8_t science[TYPES][LPMAG_SCIENCE];
    uint8_t codes[TYPES];
    uint8_t order[TYPES];
    for (size_t i = 0; i < TYPES; i++) {
        size_t other = random_below(&drive->random, (uint32_t)i + 1);
        order[i] = order[other];
        order[other] = (uint8_t)i;
        codes[i] = (uint8_t)(random_below(&drive->random, 4) << 6 | i);
        make_science(&drive->random, science[i], LPMAG_SCIENCE);
    }

    struct rooms rooms;
    rooms_make(&rooms, &drive->random, LPMAG_CELLS);
    for (size_t i = 0; i < TYPES; i++)
        compare_laying(drive, &rooms, codes[order[i]], science[order[i]], LPMAG_SCIENCE);

    uint8_t expected[LPMAG_CELLS] = {0};
    for (size_t type = 0; type < TYPES; type++) {
        for (size_t i = 0; i < LPMAG_SCIENCE; i++)
            expected[layout()->place[type][i]] = science[type][i];
        expected[PAIRS + type / 4] = (uint8_t)(expected[PAIRS + type / 4] << 2 | codes[type] >> 6);
    }
    struct question question = {LAY_ELECTRONS, NULL, 0, {{"room", LPMAG_CELLS}}};
    expect_bytes(drive, &question, "all 36 types were laid, and the cells aren't what they carry",
                 room_of_bytes(&rooms, &rooms.first), expected, sizeof expected);
    drive->accumulations++;
}

/* ---- raw cells -------------------------------------------------------- */

static void compare_cell(struct drive *drive, const struct asked *asked, size_t cell)
{
    struct question question = {CELL, asked->bytes, asked->length, {{"held", asked->held}, {"cell", cell}}};
    struct rooms rooms;
    rooms_make(&rooms, &drive->random, 1);
    uint8_t first = lpmag_cell(ASKED(asked), cell, room_of_bytes(&rooms, &rooms.first));
    uint8_t second = second_cell(ASKED(asked), cell, room_of_bytes(&rooms, &rooms.second));
    compare_byte_at(drive, &question, asked, &rooms, first, second, cell);
    if (first == LPMAG_OK)
        drive->cells_given[cell]++;
    else if (first == LPMAG_ABSENT)
        drive->cells_absent[cell]++;
}

static void ask_every_cell(struct drive *drive, const struct asked *asked)
{
    static size_t numbers[MOST_NUMBERS];
    size_t count = make_numbers(3100, numbers);
    for (size_t i = 0; i < count; i++)
        compare_cell(drive, asked, numbers[i]);
}

static void ask_some_cells(struct drive *drive, const struct asked *asked)
{
    for (size_t cell = 0; cell <= CELLS; cell += 1 + random_below(&drive->random, 200))
        compare_cell(drive, asked, cell);
}

static void compare_cells(struct drive *drive)
{
    begin(drive, "raw cells at every place and past the end, with every held mark");
    for (unsigned i = 0; i < 2; i++)
        ask_with_marks(drive, &accumulation, CELL, ask_every_cell);

    begin(drive, "raw cells of accumulations of many sizes");
    ask_of_sizes(drive, &accumulation, CELL, ask_some_cells);
}

/* ---- the samples of a bin --------------------------------------------- */

static void compare_bins(struct drive *drive)
{
    static size_t bins[MOST_NUMBERS];
    size_t count = make_numbers(300, bins);
    begin(drive, "how many samples every bin has, past the last and at huge ones");
    for (size_t i = 0; i < count; i++) {
        struct question question = {BIN_SAMPLES, NULL, 0, {{"bin", bins[i]}}};
        uint8_t first = lpmag_bin_samples(bins[i]);
        same_answer(drive, &question, first, second_bin_samples(bins[i]));
        expect_answer(drive, &question, first,
                      bins[i] < BINS ? layout()->samples[bins[i]] : LPMAG_NO_SUCH_BIN);
        drive->answers[BIN_SAMPLES][first]++;
    }
}

void drive_cells(struct drive *drive)
{
    if (!second_format_whole())
        fail(1, "compare: the second's table doesn't carry 83 cells a type and each cell once");
    compare_sizes(drive);
    compare_frames(drive);
    begin(drive, "whole accumulations, their frames laid in any order");
    for (unsigned i = 0; i < 300; i++)
        compare_accumulation(drive);
    compare_cells(drive);
    compare_bins(drive);
}
