/* Counts and angles: the range of a code, the sum of two ranges, the angle of an
 * anode at a spin phase. */
#include "driver/asked.h"
#include "second/counts.h"
#include "subjects.h"

#include <system.h>

/* ---- the range of a code ---------------------------------------------- */

/* Answers what the first gives. */
static struct expected compare_count_range(struct drive *drive, uint8_t code, uint8_t divided_by)
{
    struct question question = {COUNT_RANGE, NULL, 0, {{"code", code}, {"divided by", divided_by}}};
    struct ranges ranges;
    ranges_make(&ranges, &drive->random);
    uint8_t first = lpmag_count_range(code, divided_by, RANGE_OF(ranges.first));
    uint8_t second = second_count_range(code, divided_by, RANGE_OF(ranges.second));

    struct expected expected = {LPMAG_NO_SUCH_PLACE, 0, 0};
    if (divided_by == 1 || divided_by == 8 || divided_by == 16)
        expected = expected_counts(code, divided_by);
    compare_counts(drive, &question, &ranges, first, second, expected);
    return (struct expected){first, ranges.first[LOW], ranges.first[HIGH]};
}

static void compare_every_code(struct drive *drive)
{
    begin(drive, "the range of every code, divided by every number");
    for (unsigned divided_by = 0; divided_by < 256; divided_by++)
        for (unsigned code = 0; code < 256; code++)
            compare_count_range(drive, (uint8_t)code, (uint8_t)divided_by);
}

/* 01, "Counts": every count from 0 to 524,287 lies in exactly one code's range;
 * before it was divided by 8 or 16, every one below 8 or 16 times 524,288. */
static void compare_every_count(struct drive *drive)
{
    enum { COUNTS = 524288 };
    static const uint8_t divisors[] = {1, 8, 16};
    static uint8_t in_ranges[16 * COUNTS];
    begin(drive, "that every count lies in one code's range");
    for (size_t i = 0; i < sizeof divisors; i++) {
        size_t counts = (size_t)divisors[i] * COUNTS;
        struct question question = {COUNT_RANGE, NULL, 0, {{"code", 0}, {"divided by", divisors[i]}}};
        memset(in_ranges, 0, counts);
        for (unsigned code = 0; code < 256; code++) {
            struct expected range = compare_count_range(drive, (uint8_t)code, divisors[i]);
            question.also[0].number = code;
            expect_answer(drive, &question, range.low <= range.high && range.high < counts, true);
            for (uint64_t count = range.low; count <= range.high; count++)
                in_ranges[count]++;
        }
        question.also[0].name = "count";
        for (size_t count = 0; count < counts; count++) {
            question.also[0].number = count;
            expect_answer(drive, &question, in_ranges[count], 1);
        }
    }
}

/* 000 section 2.6, as far as the table is printed: "the minimum value the counter
 * must have had for that code", and the value is "below the value for the next
 * highest code". */
static void compare_printed_table(struct drive *drive)
{
    static const uint32_t minimum[16][12] = {
        {0, 1, 2, 3, 4, 5, 6, 7, 8, 9, 10, 11},
        {16, 17, 18, 19, 20, 21, 22, 23, 24, 25, 26, 27},
        {32, 34, 36, 38, 40, 42, 44, 46, 48, 50, 52, 54},
        {64, 68, 72, 76, 80, 84, 88, 92, 96, 100, 104, 108},
        {128, 136, 144, 152, 160, 168, 176, 184, 192, 200, 208, 216},
        {256, 272, 288, 304, 320, 336, 352, 368, 384, 400, 416, 432},
        {512, 544, 576, 608, 640, 672, 704, 736, 768, 800, 832, 864},
        {1024, 1088, 1152, 1216, 1280, 1344, 1408, 1472, 1536, 1600, 1664, 1728},
        {2048, 2176, 2304, 2432, 2560, 2688, 2816, 2944, 3072, 3200, 3328, 3456},
        {4096, 4352, 4608, 4864, 5120, 5376, 5632, 5888, 6144, 6400, 6656, 6912},
        {8192, 8704, 9216, 9728, 10240, 10752, 11264, 11776, 12288, 12800, 13312, 13824},
        {16384, 17408, 18432, 19456, 20480, 21504, 22528, 23552, 24576, 25600, 26624, 27648},
        {32768, 34816, 36864, 38912, 40960, 43008, 45056, 47104, 49152, 51200, 53248, 55296},
        {65536, 69632, 73728, 77824, 81920, 86016, 90112, 94208, 98304, 102400, 106496, 110592},
        {131072, 139264, 147456, 155648, 163840, 172032, 180224, 188416, 196608, 204800, 212992, 221184},
        {262144, 278528, 294912, 311296, 327680, 344064, 360448, 376832, 393216, 409600, 425984, 442368},
    };
    begin(drive, "the printed table of codes");
    for (unsigned row = 0; row < 16; row++)
        for (unsigned column = 0; column < 12; column++) {
            unsigned code = 16 * row + column;
            struct question question = {COUNT_RANGE, NULL, 0, {{"code", code}, {"divided by", 1}}};
            struct expected range = compare_count_range(drive, (uint8_t)code, 1);
            expect_answer(drive, &question, range.low, minimum[row][column]);
            if (column + 1 < 12)
                expect_answer(drive, &question, range.high, minimum[row][column + 1] - 1);
        }
}

/* 01, "Sixteen examples to be proved". */
static void compare_printed_codes(struct drive *drive)
{
    static const struct {
        uint8_t code;
        uint32_t low, high;
    } examples[] = {{0, 0, 0}, {15, 15, 15}, {16, 16, 16}, {31, 31, 31}, {32, 32, 33}, {255, 507904, 524287}};
    begin(drive, "the printed examples of codes");
    for (size_t i = 0; i < sizeof examples / sizeof examples[0]; i++) {
        struct question question = {COUNT_RANGE, NULL, 0, {{"code", examples[i].code}, {"divided by", 1}}};
        struct expected range = compare_count_range(drive, examples[i].code, 1);
        expect_answer(drive, &question, range.low, examples[i].low);
        expect_answer(drive, &question, range.high, examples[i].high);
    }
}

/* ---- sums ------------------------------------------------------------- */

static bool past_64_bits(uint64_t one, uint64_t other)
{
    return one > UINT64_MAX - other;
}

static void compare_count_sum(struct drive *drive, uint64_t low_a, uint64_t high_a, uint64_t low_b,
                              uint64_t high_b)
{
    struct question question = {
        COUNT_SUM, NULL, 0, {{"low a", low_a}, {"high a", high_a}, {"low b", low_b}, {"high b", high_b}}};
    struct ranges ranges;
    ranges_make(&ranges, &drive->random);
    uint8_t first = lpmag_count_sum(low_a, high_a, low_b, high_b, RANGE_OF(ranges.first));
    uint8_t second = second_count_sum(low_a, high_a, low_b, high_b, RANGE_OF(ranges.second));

    bool low_past = past_64_bits(low_a, low_b);
    bool high_past = past_64_bits(high_a, high_b);
    struct expected expected = {LPMAG_TOO_LARGE, 0, 0};
    if (!low_past && !high_past)
        expected = (struct expected){0, low_a + low_b, high_a + high_b};
    compare_counts(drive, &question, &ranges, first, second, expected);
    drive->sums_past[low_past][high_past]++;
}

static void compare_sums(struct drive *drive)
{
    static const uint64_t ends[] = {
        0,
        1,
        16,
        524287,
        0x7FFFFFFF,
        0xFFFFFFFF,
        0x100000000,
        0x7FFFFFFFFFFFFFFF,
        0x8000000000000000,
        0x8000000000000001,
        UINT64_MAX - 524287,
        UINT64_MAX - 1,
        UINT64_MAX,
    };
    enum { ENDS = sizeof ends / sizeof ends[0] };
    begin(drive, "sums of ranges with every end");
    for (size_t i = 0; i < ENDS * ENDS; i++)
        for (size_t j = 0; j < ENDS * ENDS; j++)
            compare_count_sum(drive, ends[i / ENDS], ends[i % ENDS], ends[j / ENDS], ends[j % ENDS]);

    begin(drive, "sums of any ranges");
    for (unsigned i = 0; i < 100000; i++) {
        uint64_t any[4];
        for (size_t j = 0; j < 4; j++)
            any[j] = random_next(&drive->random) >> random_below(&drive->random, 64);
        compare_count_sum(drive, any[0], any[1], any[2], any[3]);
    }

    /* The sums are 2^64 - 1 and up to three more or less. */
    begin(drive, "sums of ranges around 2^64");
    for (unsigned i = 0; i < 100000; i++) {
        uint64_t low = random_next(&drive->random) >> random_below(&drive->random, 64);
        uint64_t high = random_next(&drive->random) >> random_below(&drive->random, 64);
        uint64_t low_off = random_below(&drive->random, 7);
        uint64_t high_off = random_below(&drive->random, 7);
        compare_count_sum(drive, low, high, UINT64_MAX - low - 3 + low_off, UINT64_MAX - high - 3 + high_off);
    }
}

/* ---- angles ----------------------------------------------------------- */

/* 01, "Angles": the phases that an anode's angles cover. */
static size_t phases_per_angle(size_t anode)
{
    switch (anode) {
    case 0:
    case 7:
    case 8:
    case 15:
        return 4;
    case 1:
    case 6:
    case 9:
    case 14:
        return 2;
    default:
        return 1;
    }
}

/* The angles are numbered in their order, so those of the anodes before come
 * first. */
static uint8_t expected_angle(size_t anode, size_t phase)
{
    if (anode > 15 || phase > 7)
        return LPMAG_NO_SUCH_BIN;
    size_t angle = phase / phases_per_angle(anode);
    for (size_t before = 0; before < anode; before++)
        angle += 8 / phases_per_angle(before);
    return (uint8_t)angle;
}

static void compare_angle(struct drive *drive, size_t anode, size_t phase, uint8_t expected)
{
    struct question question = {ANGLE, NULL, 0, {{"anode", anode}, {"phase", phase}}};
    uint8_t first = lpmag_angle(anode, phase);
    same_answer(drive, &question, first, second_angle(anode, phase));
    expect_answer(drive, &question, first, expected);
    drive->angles[first]++;
}

static void compare_angles(struct drive *drive)
{
    static size_t anodes[MOST_NUMBERS], phases[MOST_NUMBERS];
    size_t anode_count = make_numbers(300, anodes);
    size_t phase_count = make_numbers(300, phases);

    /* 01, "Sixteen examples to be proved". */
    begin(drive, "the printed examples of angles");
    compare_angle(drive, 7, 3, 42);
    compare_angle(drive, 7, 4, 43);

    begin(drive, "the angles of every anode and phase, and of none");
    for (size_t i = 0; i < anode_count; i++)
        for (size_t j = 0; j < phase_count; j++)
            compare_angle(drive, anodes[i], phases[j], expected_angle(anodes[i], phases[j]));
}

void drive_counts(struct drive *drive)
{
    compare_printed_codes(drive);
    compare_printed_table(drive);
    compare_every_code(drive);
    compare_every_count(drive);
    compare_sums(drive);
    compare_angles(drive);
}
