/* The version; and numbers in bytes: 16, 24 and 32 bits from a place, 12 bits in both
 * orders. */
#include "driver/differ.h"
#include "second/record.h"
#include "subjects.h"

#include <system.h>

static void compare_version(struct drive *drive)
{
    struct question question = {VERSION, NULL, 0, {{NULL, 0}}};
    begin(drive, "the version");
    same_answer(drive, &question, lpmag_version(), second_version());
    expect_answer(drive, &question, lpmag_version(), LPMAG_VERSION);
}

/* The five functions: what both answer, and what it has to be. */
#define SAME_NUMBER(NAME, name) \
    question.function = NAME;   \
    same_answer(drive, &question, lpmag_##name(bytes, length, place), second_##name(bytes, length, place))
#define EXPECTED_NUMBER(NAME, name, number) \
    question.function = NAME;               \
    expect_answer(drive, &question, lpmag_##name(bytes, length, place), number)

static void compare_place(struct drive *drive, const uint8_t *bytes, size_t length, size_t place)
{
    struct question question = {WORD16, bytes, length, {{"place", place}}};
    SAME_NUMBER(WORD16, word16);
    SAME_NUMBER(WORD24, word24);
    SAME_NUMBER(WORD32, word32);
    SAME_NUMBER(TWELVE_LEAST, twelve_least);
    SAME_NUMBER(TWELVE_MOST, twelve_most);
}

static void compare_around(struct drive *drive, const uint8_t *bytes, size_t length, size_t place)
{
    for (size_t i = 0; i < 5; i++)
        compare_place(drive, bytes, length, place - 2 + i);
}

/* Places where place + size, 8 * place, 12 * place or place / 2 * 3 leaves 64
 * bits and comes back near 0. */
static void compare_huge_places(struct drive *drive, const uint8_t *bytes, size_t length)
{
    for (size_t parts = 1; parts <= 16; parts++)
        for (size_t part = 1; part <= parts; part++)
            compare_around(drive, bytes, length, SIZE_MAX / parts * part);
    for (unsigned power = 7; power < 64; power++)
        compare_around(drive, bytes, length, (size_t)1 << power);
}

static void compare_places(struct drive *drive)
{
    uint8_t made[100];
    begin(drive, "numbers at every place and past the end");
    for (size_t length = 0; length <= sizeof made; length++)
        for (unsigned i = 0; i < 50; i++) {
            random_fill(&drive->random, made, length);
            const uint8_t *bytes = lend_bytes(&drive->random, made, length);
            for (size_t place = 0; place <= length + 20; place++)
                compare_place(drive, bytes, length, place);
        }

    begin(drive, "numbers at huge places");
    for (size_t length = 0; length <= sizeof made; length++)
        for (unsigned i = 0; i < 4; i++) {
            random_fill(&drive->random, made, length);
            compare_huge_places(drive, lend_bytes(&drive->random, made, length), length);
        }
}

/* In bytes that are all ones a number has only ones if it lies wholly in them,
 * else it is 0. */
static void compare_ends(struct drive *drive)
{
    uint8_t ones[100];
    memset(ones, 0xFF, sizeof ones);
    begin(drive, "which numbers lie wholly in the bytes");
    for (size_t length = 0; length <= sizeof ones; length++) {
        const uint8_t *bytes = lend_bytes(&drive->random, ones, length);
        for (size_t place = 0; place <= length + 20; place++) {
            struct question question = {WORD16, bytes, length, {{"place", place}}};
            bool twelve = 12 * place + 12 <= 8 * length;
            compare_place(drive, bytes, length, place);
            EXPECTED_NUMBER(WORD16, word16, place + 2 <= length ? 0xFFFF : 0);
            EXPECTED_NUMBER(WORD24, word24, place + 3 <= length ? 0xFFFFFF : 0);
            EXPECTED_NUMBER(WORD32, word32, place + 4 <= length ? 0xFFFFFFFF : 0);
            EXPECTED_NUMBER(TWELVE_LEAST, twelve_least, twelve ? 0xFFF : 0);
            EXPECTED_NUMBER(TWELVE_MOST, twelve_most, twelve ? 0xFFF : 0);
        }
    }
}

/* Three bytes are two 12-bit numbers: put together again in their order, they
 * are the three bytes as one number. */
static void compare_three_bytes(struct drive *drive)
{
    begin(drive, "12-bit numbers in every three bytes");
    for (uint32_t content = 0; content < 1u << 24; content++) {
        const uint8_t bytes[3] = {(uint8_t)(content >> 16), (uint8_t)(content >> 8), (uint8_t)content};
        uint32_t least[2], most[2];
        struct question question = {TWELVE_LEAST, bytes, sizeof bytes, {{"place", 0}}};
        for (size_t k = 0; k < 2; k++) {
            question.also[0].number = k;
            question.function = TWELVE_LEAST;
            least[k] = lpmag_twelve_least(bytes, sizeof bytes, k);
            same_answer(drive, &question, least[k], second_twelve_least(bytes, sizeof bytes, k));
            question.function = TWELVE_MOST;
            most[k] = lpmag_twelve_most(bytes, sizeof bytes, k);
            same_answer(drive, &question, most[k], second_twelve_most(bytes, sizeof bytes, k));
        }
        question.also[0].name = NULL;
        expect_answer(drive, &question, most[0] << 12 | most[1], content);
        question.function = TWELVE_LEAST;
        expect_answer(drive, &question, least[1] << 12 | least[0],
                      (uint32_t)bytes[2] << 16 | (uint32_t)bytes[1] << 8 | bytes[0]);
    }
}

/* 01, "Sixteen examples to be proved": 80 07 FF give 0 and -1, 00 0F FF give
 * -2,048 and 2,047, most significant bit first. The same answers in the packet's
 * order, bit by bit from 000 section 2.2. */
static void compare_examples(struct drive *drive)
{
    static const struct {
        enum function function;
        uint8_t bytes[3];
        int samples[2];
    } examples[] = {
        {TWELVE_MOST, {0x80, 0x07, 0xFF}, {0, -1}},
        {TWELVE_MOST, {0x00, 0x0F, 0xFF}, {-2048, 2047}},
        {TWELVE_LEAST, {0x00, 0xF8, 0x7F}, {0, -1}},
        {TWELVE_LEAST, {0x00, 0xF0, 0xFF}, {-2048, 2047}},
    };
    begin(drive, "the printed 12-bit examples");
    for (size_t i = 0; i < sizeof examples / sizeof examples[0]; i++)
        for (size_t k = 0; k < 2; k++) {
            const uint8_t *bytes = examples[i].bytes;
            bool least = examples[i].function == TWELVE_LEAST;
            uint16_t first = least ? lpmag_twelve_least(bytes, 3, k) : lpmag_twelve_most(bytes, 3, k);
            uint16_t second = least ? second_twelve_least(bytes, 3, k) : second_twelve_most(bytes, 3, k);
            struct question question = {examples[i].function, bytes, 3, {{"place", k}}};
            same_answer(drive, &question, first, second);
            expect_answer(drive, &question, first, (uint64_t)(examples[i].samples[k] + 2048));
        }
}

void drive_words(struct drive *drive)
{
    compare_version(drive);
    compare_examples(drive);
    compare_ends(drive);
    compare_places(drive);
    compare_three_bytes(drive);
}
