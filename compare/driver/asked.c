#include "asked.h"

/* ---- what is asked about ---------------------------------------------- */

static uint8_t carrier_of_cell(size_t cell)
{
    return layout()->carrier[cell];
}

/* The packet of type t carries the bytes from 82 (t - 36) on. */
static uint8_t carrier_of_byte(size_t place)
{
    return (uint8_t)(place / LPMAG_BURST);
}

enum { LARGEST = 4096 };
static const size_t sizes_of_cells[] = {0, 1, 2987, 2988, 2996, 2997, 2998, LARGEST};
static const size_t sizes_of_bytes[] = {0, 1, 82, 1558, 1639, 1640, 1641, 1722, 2997, LARGEST};

const struct whole accumulation = {.changed = "the cells were changed",
                                   .length = LPMAG_CELLS,
                                   .places = CELLS,
                                   .types = TYPES,
                                   .carrier = carrier_of_cell,
                                   .bits = 64,
                                   .marks = MOST_MARKS,
                                   .sizes = sizes_of_cells,
                                   .size_count = sizeof sizes_of_cells / sizeof sizes_of_cells[0]};
const struct whole snapshot = {.changed = "the snapshot was changed",
                               .length = LPMAG_SNAPSHOT,
                               .places = LPMAG_SNAPSHOT,
                               .types = PACKETS,
                               .carrier = carrier_of_byte,
                               .bits = 32,
                               .marks = 90,
                               .sizes = sizes_of_bytes,
                               .size_count = sizeof sizes_of_bytes / sizeof sizes_of_bytes[0]};

struct asked lend_asked(struct drive *drive, const struct whole *whole, const uint8_t *made, size_t length,
                        uint64_t held)
{
    return (struct asked){whole, made, lend_bytes(&drive->random, made, length), length, held};
}

struct asked lend_any(struct drive *drive, const struct whole *whole, uint8_t *made, uint64_t held)
{
    random_fill(&drive->random, made, whole->length);
    return lend_asked(drive, whole, made, whole->length, held);
}

void expect_unchanged(struct drive *drive, enum function function, const struct asked *asked)
{
    struct question question = {function, asked->bytes, asked->length, {{NULL, 0}}};
    if (asked->length > 0)
        expect_bytes(drive, &question, asked->whole->changed, asked->bytes, asked->made, asked->length);
}

/* ---- what is expected ------------------------------------------------- */

uint8_t expected_answer(const struct asked *asked, size_t place)
{
    const struct whole *whole = asked->whole;
    if (asked->length != whole->length || asked->held > MARKS_OF(whole->types) || place >= whole->places)
        return LPMAG_NO_SUCH_PLACE;
    return asked->held >> whole->carrier(place) & 1 ? LPMAG_OK : LPMAG_ABSENT;
}

struct expected expected_counts(uint8_t code, uint64_t divided_by)
{
    uint64_t e = code / 16;
    uint64_t m = code % 16;
    uint64_t low = e == 0 ? m : (16 + m) << (e - 1);
    uint64_t high = e == 0 ? m : ((17 + m) << (e - 1)) - 1;
    return (struct expected){0, divided_by * low, divided_by * high + (divided_by - 1)};
}

struct expected expected_counts_at(const struct asked *asked, size_t place, uint64_t divided_by)
{
    uint8_t answer = expected_answer(asked, place);
    if (answer != LPMAG_OK)
        return (struct expected){answer, 0, 0};
    return expected_counts(asked->bytes[place], divided_by);
}

void compare_counts(struct drive *drive, const struct question *question, const struct ranges *ranges,
                    uint8_t first, uint8_t second, struct expected expected)
{
    same_answer(drive, question, first, second);
    same_ranges(drive, question, ranges, first != 0);
    expect_answer(drive, question, first, expected.answer);
    if (first == 0)
        expect_range(drive, question, ranges, expected.low, expected.high);
    drive->answers[question->function][first]++;
}

void compare_byte_at(struct drive *drive, const struct question *question, const struct asked *asked,
                     struct rooms *rooms, uint8_t first, uint8_t second, size_t place)
{
    compare_answers(drive, question, rooms, first, second, expected_answer(asked, place));
    if (first == LPMAG_OK)
        expect_bytes(drive, question, "the byte isn't the one in its place",
                     room_of_bytes(rooms, &rooms->first), asked->bytes + place, 1);
}

/* ---- what is asked with ----------------------------------------------- */

void make_marks(struct random *random, const struct whole *whole, uint64_t *marks)
{
    const uint64_t all = MARKS_OF(whole->types);
    const uint64_t any = UINT64_MAX >> (64 - whole->bits);
    size_t made = 0;
    marks[made++] = 0;
    marks[made++] = all;
    for (unsigned type = 0; type < whole->types; type++) {
        marks[made++] = (uint64_t)1 << type;
        marks[made++] = all & ~((uint64_t)1 << type);
    }
    for (unsigned past = whole->types; past < whole->bits; past++) {
        marks[made++] = (uint64_t)1 << past;
        marks[made++] = (uint64_t)1 << past | all;
    }
    marks[made++] = any;
    marks[made++] = any & ~all;
    for (; made < whole->marks; made++)
        marks[made] = random_next(random) & (made % 4 == 0 ? any : all);
}

size_t make_numbers(size_t last, size_t *numbers)
{
    static const unsigned powers[] = {8, 16, 31, 32, 59, 60, 61, 62, 63};
    static const size_t others[] = {
        SIZE_MAX / 16 - 1, SIZE_MAX / 16 + 2, SIZE_MAX / 88 - 1, SIZE_MAX / 88, SIZE_MAX / 88 + 1,
        SIZE_MAX / 88 + 2, SIZE_MAX - 88,     SIZE_MAX - 87,     SIZE_MAX - 31, SIZE_MAX - 16,
        SIZE_MAX - 15,     SIZE_MAX - 1,      SIZE_MAX,
    };
    size_t made = 0;
    for (size_t number = 0; number <= last; number++)
        numbers[made++] = number;
    for (size_t i = 0; i < sizeof powers / sizeof powers[0]; i++) {
        size_t power = (size_t)1 << powers[i];
        numbers[made++] = power - 1;
        numbers[made++] = power;
        numbers[made++] = power + 1;
    }
    for (size_t i = 0; i < sizeof others / sizeof others[0]; i++)
        numbers[made++] = others[i];
    return made;
}

/* ---- how it is asked -------------------------------------------------- */

void ask_with_marks(struct drive *drive, const struct whole *whole, enum function function, ask *ask)
{
    uint64_t marks[MOST_MARKS];
    uint8_t made[LARGEST];
    make_marks(&drive->random, whole, marks);
    for (size_t i = 0; i < whole->marks; i++) {
        struct asked asked = lend_any(drive, whole, made, marks[i]);
        ask(drive, &asked);
        expect_unchanged(drive, function, &asked);
    }
}

void ask_of_sizes(struct drive *drive, const struct whole *whole, enum function function, ask *ask)
{
    uint64_t marks[MOST_MARKS];
    uint8_t made[LARGEST];
    make_marks(&drive->random, whole, marks);
    random_fill(&drive->random, made, sizeof made);
    for (size_t i = 0; i < whole->size_count; i++)
        for (size_t j = 0; j < whole->marks; j++) {
            struct asked asked = lend_asked(drive, whole, made, whole->sizes[i], marks[j]);
            ask(drive, &asked);
            expect_unchanged(drive, function, &asked);
        }
}
