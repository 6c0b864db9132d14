/* The questions about a finished major frame: the subcom word of a slot, its samples
 * and their fields. */
#include "driver/asked.h"
#include "driver/reader.h"
#include "second/major.h"
#include "subjects.h"

#include <system.h>

/* ---- one question ----------------------------------------------------- */

/* What is asked about: anything may stand in it. */
struct asked_major {
    struct lpmag_major made;
    int16_t made_samples[2 * LPMAG_FRAME];
    size_t count;
    const void *major;      /* lent for it: a major frame of either implementation */
    const int16_t *samples; /* likewise */
};

static void lend_major(struct random *random, struct asked_major *asked)
{
    asked->major = lend_struct(random, &asked->made, sizeof asked->made);
    asked->samples = lend_numbers(random, asked->made_samples, asked->count);
}

/* After questions, the last of that function: what was lent has to be as made. */
static void expect_same_major(struct drive *drive, enum function function, const struct asked_major *asked)
{
    struct question question = {function, NULL, 0, {{NULL, 0}}};
    expect_bytes(drive, &question, "the major frame was changed", asked->major, &asked->made,
                 sizeof asked->made);
    if (asked->count > 0)
        expect_bytes(drive, &question, "the samples were changed", asked->samples, asked->made_samples,
                     asked->count * sizeof(int16_t));
}

static void compare_word(struct drive *drive, const struct asked_major *asked, size_t slot)
{
    struct question question = {MAJOR_WORD, asked->major, sizeof asked->made, {{"slot", slot}}};
    struct rooms rooms;
    rooms_make(&rooms, &drive->random, sizeof(uint16_t));
    uint16_t *first_word = (uint16_t *)room_of_numbers(&rooms, &rooms.first);
    uint16_t *second_word = (uint16_t *)room_of_numbers(&rooms, &rooms.second);
    uint8_t first = lpmag_major_word(asked->major, slot, first_word);
    uint8_t second = second_major_word(asked->major, slot, second_word);
    uint8_t of_a_slot = asked->made.slots >> slot % SLOTS & 1 ? LPMAG_OK : LPMAG_ABSENT;
    compare_answers(drive, &question, &rooms, first, second, slot > 15 ? LPMAG_NO_SUCH_PLACE : of_a_slot);
    if (first == LPMAG_OK)
        expect_answer(drive, &question, *first_word, asked->made.words[slot]);
}

/* No such place, then absent. */
static uint8_t expected_sample(const struct asked_major *asked, size_t slot, size_t number, bool field)
{
    if (asked->count != LPMAG_FRAME || slot > 15 || number > 53)
        return LPMAG_NO_SUCH_PLACE;
    int16_t sample = asked->made_samples[54 * slot + number];
    if (sample < -2048 || sample > 2047 || (field && asked->made.ranges[slot] > 7))
        return LPMAG_NO_SUCH_PLACE;
    return asked->made.mag_slots >> slot & 1 ? LPMAG_OK : LPMAG_ABSENT;
}

static struct question question_of(enum function function, const struct asked_major *asked, size_t slot,
                                   size_t number)
{
    bool stored = asked->count == LPMAG_FRAME && slot < SLOTS && number < LPMAG_SAMPLES;
    int sample = stored ? asked->made_samples[LPMAG_SAMPLES * slot + number] : 0;
    return (struct question){function,
                             asked->major,
                             sizeof asked->made,
                             {{"samples", asked->count},
                              {"slot", slot},
                              {"number", number},
                              {"sample there, plus 32768", (uint64_t)(sample + 32768)}}};
}

static void compare_sample(struct drive *drive, const struct asked_major *asked, size_t slot, size_t number)
{
    struct question question = question_of(MAJOR_SAMPLE, asked, slot, number);
    struct rooms rooms;
    rooms_make(&rooms, &drive->random, sizeof(int16_t));
    int16_t *first_sample = room_of_numbers(&rooms, &rooms.first);
    int16_t *second_sample = room_of_numbers(&rooms, &rooms.second);
    uint8_t first =
        lpmag_major_sample(asked->major, asked->samples, asked->count, slot, number, first_sample);
    uint8_t second =
        second_major_sample(asked->major, asked->samples, asked->count, slot, number, second_sample);
    compare_answers(drive, &question, &rooms, first, second, expected_sample(asked, slot, number, false));
    if (first == LPMAG_OK)
        expect_answer(drive, &question, (uint64_t)(*first_sample + 32768),
                      (uint64_t)(asked->made_samples[54 * slot + number] + 32768));
}

/* The field has to be what lpmag_field gives for the sample and the slot's range. */
static void compare_major_field(struct drive *drive, const struct asked_major *asked, size_t slot,
                                size_t number)
{
    struct question question = question_of(MAJOR_FIELD, asked, slot, number);
    struct rooms rooms;
    rooms_make(&rooms, &drive->random, sizeof(float));
    float *first_field = room_of_fields(&rooms, &rooms.first);
    float *second_field_room = room_of_fields(&rooms, &rooms.second);
    uint8_t first = lpmag_major_field(asked->major, asked->samples, asked->count, slot, number, first_field);
    uint8_t second =
        second_major_field(asked->major, asked->samples, asked->count, slot, number, second_field_room);
    compare_answers(drive, &question, &rooms, first, second, expected_sample(asked, slot, number, true));
    if (first == LPMAG_OK) {
        float field;
        lpmag_field(asked->made_samples[54 * slot + number], asked->made.ranges[slot], &field);
        expect_bytes(drive, &question, "the field isn't that of the sample and the range", first_field,
                     &field, sizeof field);
    }
}

/* ---- major frames to ask about ---------------------------------------- */

/* Mostly within its bounds, often at one of them or just past it. */
static int16_t any_sample(struct random *random)
{
    static const int16_t ends[] = {-2049, -2048, -2047, -1, 0, 1, 2046, 2047, 2048, INT16_MIN, INT16_MAX};
    switch (random_below(random, 8)) {
    case 0:
        return ends[random_below(random, sizeof ends / sizeof ends[0])];
    case 1:
        return (int16_t)random_next(random);
    default:
        return (int16_t)((int)random_below(random, 4096) - 2048);
    }
}

static void make_major(struct random *random, struct asked_major *asked)
{
    asked->count = LPMAG_FRAME;
    random_fill(random, (uint8_t *)&asked->made, sizeof asked->made);
    for (size_t slot = 0; slot < SLOTS; slot++)
        if (!random_once_in(random, 8))
            asked->made.ranges[slot] %= 8;
    for (size_t i = 0; i < 2 * LPMAG_FRAME; i++)
        asked->made_samples[i] = any_sample(random);
}

/* The slots held, and those held with MAG. */
static void set_marks(struct asked_major *asked, unsigned slots, unsigned mag)
{
    asked->made.slots = (uint16_t)slots;
    asked->made.mag_slots = (uint16_t)mag;
}

static void compare_slot(struct drive *drive, const struct asked_major *asked, size_t slot,
                         const size_t *numbers, size_t count)
{
    compare_word(drive, asked, slot);
    for (size_t i = 0; i < count; i++) {
        compare_sample(drive, asked, slot, numbers[i]);
        compare_major_field(drive, asked, slot, numbers[i]);
    }
}

/* ---- what is asked ---------------------------------------------------- */

static void compare_places(struct drive *drive)
{
    static size_t slots[MOST_NUMBERS], numbers[MOST_NUMBERS];
    static struct asked_major asked;
    size_t slot_count = make_numbers(20, slots);
    size_t number_count = make_numbers(60, numbers);
    begin(drive, "every slot and MAG number of a major frame, past the last and at huge ones");
    for (unsigned i = 0; i < 40; i++) {
        make_major(&drive->random, &asked);
        if (i % 2 == 0)
            set_marks(&asked, 0xFFFF, 0xFFFF);
        lend_major(&drive->random, &asked);
        for (size_t j = 0; j < slot_count; j++)
            compare_slot(drive, &asked, slots[j], numbers, number_count);
        expect_same_major(drive, MAJOR_FIELD, &asked);
    }
}

/* Each bit of either set of marks alone, all but each, none, all, any. */
static void compare_marks(struct drive *drive)
{
    static struct asked_major asked;
    begin(drive, "major frames with every mark");
    for (unsigned i = 0; i < 40; i++)
        for (unsigned bit = 0; bit <= SLOTS; bit++)
            for (unsigned form = 0; form < 5; form++) {
                unsigned one = 1u << bit & 0xFFFF;
                unsigned any = random_below(&drive->random, 0x10000);
                const unsigned marks[5][2] = {
                    {one, any}, {any, one}, {~one & 0xFFFF, any}, {any, ~one & 0xFFFF}, {one, one}};
                const size_t number = random_below(&drive->random, LPMAG_SAMPLES);
                make_major(&drive->random, &asked);
                set_marks(&asked, marks[form][0], marks[form][1]);
                lend_major(&drive->random, &asked);
                for (size_t slot = 0; slot < SLOTS; slot++)
                    compare_slot(drive, &asked, slot, &number, 1);
                expect_same_major(drive, MAJOR_FIELD, &asked);
            }
}

/* Every range at every slot, with each sample at its bounds and past them, held or
 * not. */
static void compare_ranges(struct drive *drive)
{
    static const int16_t ends[] = {INT16_MIN, -2049, -2048, -1, 0, 1, 2047, 2048, INT16_MAX};
    static struct asked_major asked;
    begin(drive, "major frames with every range, and samples at their bounds and past them");
    for (unsigned range = 0; range < 256; range++)
        for (size_t slot = 0; slot < SLOTS; slot++) {
            make_major(&drive->random, &asked);
            asked.made.ranges[slot] = (uint8_t)range;
            for (size_t i = 0; i < sizeof ends / sizeof ends[0]; i++)
                asked.made_samples[54 * slot + (5 * i + range) % 54] = ends[i];
            lend_major(&drive->random, &asked);
            for (size_t i = 0; i < sizeof ends / sizeof ends[0]; i++) {
                compare_sample(drive, &asked, slot, (5 * i + range) % 54);
                compare_major_field(drive, &asked, slot, (5 * i + range) % 54);
            }
            expect_same_major(drive, MAJOR_FIELD, &asked);
        }
}

static void compare_sizes(struct drive *drive)
{
    static const size_t counts[] = {0, 1, 54, 432, 863, 864, 865, 1728};
    static const size_t numbers[] = {0, 7, 53, 54};
    static struct asked_major asked;
    begin(drive, "major frames with samples of many sizes");
    for (size_t i = 0; i < sizeof counts / sizeof counts[0]; i++)
        for (unsigned j = 0; j < 100; j++) {
            make_major(&drive->random, &asked);
            asked.count = counts[i];
            lend_major(&drive->random, &asked);
            for (size_t slot = 0; slot <= SLOTS; slot++)
                compare_slot(drive, &asked, slot, numbers, sizeof numbers / sizeof numbers[0]);
            expect_same_major(drive, MAJOR_FIELD, &asked);
        }
}

/* The spare field isn't looked at: with any bit of it, and with none. */
static void compare_spare(struct drive *drive)
{
    static const size_t numbers[] = {0, 53};
    static struct asked_major asked;
    begin(drive, "major frames with every bit of the spare field");
    for (unsigned i = 0; i < 10; i++) {
        make_major(&drive->random, &asked);
        for (unsigned bit = 0; bit <= 32; bit++) {
            asked.made.spare32 = bit < 32 ? 1u << bit : 0;
            lend_major(&drive->random, &asked);
            for (size_t slot = 0; slot <= SLOTS; slot++)
                compare_slot(drive, &asked, slot, numbers, sizeof numbers / sizeof numbers[0]);
            expect_same_major(drive, MAJOR_FIELD, &asked);
        }
    }
}

void drive_major(struct drive *drive)
{
    compare_places(drive);
    compare_marks(drive);
    compare_ranges(drive);
    compare_sizes(drive);
    compare_spare(drive);
}
