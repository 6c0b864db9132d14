/* The magnetometer: range and samples of MAG bytes, and of the burst packets that are a second of
 * MAG; and the nominal field. */
#include "base/text.h"
#include "driver/differ.h"
#include "driver/mag.h"
#include "driver/records.h"
#include "second/record.h"
#include "subjects.h"

static void compare_sizes(struct drive *drive)
{
    static const size_t lengths[] = {0, 1, 54, 81, 82, 83, 164, 168, 338};
    static const size_t rooms[] = {0, 1, 18, 53, 54, 55, 82, 108, 256};
    uint8_t made[338];
    begin(drive, "MAG bytes and rooms of many sizes");
    for (unsigned i = 0; i < 500; i++)
        for (size_t j = 0; j < sizeof lengths / sizeof lengths[0]; j++)
            for (size_t k = 0; k < sizeof rooms / sizeof rooms[0]; k++) {
                random_fill(&drive->random, made, lengths[j]);
                const uint8_t *mag = lend_bytes(&drive->random, made, lengths[j]);
                compare_mag(drive, mag, lengths[j], rooms[k]);
                if (lengths[j] > 0)
                    expect_bytes(drive, &(struct question){SAMPLES, mag, lengths[j], {{"room", rooms[k]}}},
                                 "the MAG bytes were changed", mag, made, lengths[j]);
            }
}

/* Each of the 54 places takes each of the 4,096 numbers, and the status byte
 * each of its values; what is read has to be what was packed. */
static void compare_every_number(struct drive *drive)
{
    begin(drive, "every 12-bit number at every MAG place");
    for (unsigned i = 0; i < 4096; i++) {
        uint16_t numbers[LPMAG_SAMPLES];
        uint8_t made[LPMAG_MAG];
        int16_t samples[LPMAG_SAMPLES];
        for (unsigned k = 0; k < LPMAG_SAMPLES; k++)
            numbers[k] = (uint16_t)((i + 1117 * k) % 4096);
        uint8_t status = (uint8_t)(i % 256);
        generate_mag(status, numbers, made);

        const uint8_t *mag = lend_bytes(&drive->random, made, sizeof made);
        compare_mag(drive, mag, sizeof made, LPMAG_SAMPLES);

        struct question question = {SAMPLES, mag, sizeof made, {{"room", LPMAG_SAMPLES}}};
        expect_answer(drive, &question, lpmag_samples(mag, sizeof made, samples, LPMAG_SAMPLES), status & 7);
        for (unsigned k = 0; k < LPMAG_SAMPLES; k++)
            expect_answer(drive, &question, (uint64_t)(samples[k] + 2048), numbers[k]);
    }
}

/* ---- a second of MAG in a burst --------------------------------------- */

/* Half and full bursts of every type, and what is none, under all top bits; in full ones both types
 * are 56 more often than others. */
static void compare_bursts(struct drive *drive)
{
    static const uint8_t whiches[] = {0, 1, 2, 3, 127, 128, 254, 255};
    static const size_t rooms[] = {LPMAG_SAMPLES, LPMAG_SAMPLES, 0, 53, 55, 108};
    uint8_t made[GENERATE_LONGEST];
    struct random *random = &drive->random;
    begin(drive, "seconds of MAG in every packet of every frame, with rooms of many sizes");
    for (unsigned i = 0; i < 30000; i++) {
        uint8_t code = (uint8_t)(i % 2 == 0 ? i / 2 : (i / 2 % 4) << 6 | 56);
        uint8_t second_code = (uint8_t)(i / 8 % 4 << 6 | 56);
        if (random_once_in(random, 2))
            second_code = (uint8_t)random_next(random);
        struct content content =
            generate_content_with(random, random_below(random, 1u << 24), code, second_code);
        size_t length = GENERATE_RECORD;
        generate_record(random, &content, made);
        if (random_once_in(random, 8))
            length = spoil(random, made, random_between(random, GENERATE_FIRST_RULE, GENERATE_LAST_RULE));
        const uint8_t *record = lend_bytes(random, made, length);
        for (size_t j = 0; j < sizeof whiches; j++)
            compare_burst(drive, record, length, whiches[j], rooms[random_below(random, 6)]);
        if (length > 0)
            expect_bytes(drive, &(struct question){BURST_SAMPLES, record, length, {{NULL, 0}}},
                         "the record's bytes were changed", record, made, length);
    }
}

/* ---- the nominal field ------------------------------------------------ */

/* A number to lend, with one on either side. */
union lent_field {
    uint32_t bits[3];
    float numbers[3];
};

/* 01, "MAG": 512 times the field equals the sample times 4 to the power of the
 * range, and sample 0 gives plus zero. By whole numbers, from the bits of the
 * single: significand * 2^(exponent - 150) is the field without its sign. */
static bool exact_field(uint32_t bits, int sample, unsigned range)
{
    if (sample == 0)
        return bits == 0;

    uint32_t exponent = bits >> 23 & 255;
    uint64_t significand = 0x800000 | (bits & 0x7FFFFF);
    uint64_t units = (uint64_t)(sample < 0 ? -sample : sample) << 2 * range;
    if ((bits >> 31 == 1) != (sample < 0))
        return false;
    /* 512 * significand * 2^(exponent - 150) = units, both sides times 2^23. */
    return exponent >= 118 && exponent <= 150 && significand << (exponent - 118) == units << 23;
}

_Noreturn static void report_field(int sample, unsigned range, const char *wrong,
                                   const union lent_field *found, const union lent_field *first,
                                   const union lent_field *second)
{
    static const char *const titles[3] = {"as found: ", "after the first: ", "after the second: "};
    const union lent_field *fields[3] = {found, first, second};
    print_text("difference in field\nsample: ");
    print_text(sample < 0 ? "-" : "");
    print_number((uint64_t)(sample < 0 ? -sample : sample));
    print_text("\nrange: ");
    print_number(range);
    print_text("\n");
    print_text(wrong);
    print_text("\n(the number before, the number lent, the number after, as bits)\n");
    for (size_t i = 0; i < 3; i++) {
        print_text(titles[i]);
        for (size_t j = 0; j < 3; j++) {
            uint32_t bits = fields[i]->bits[j];
            const uint8_t bytes[4] = {(uint8_t)(bits >> 24), (uint8_t)(bits >> 16), (uint8_t)(bits >> 8),
                                      (uint8_t)bits};
            print_hex(bytes, sizeof bytes);
            print_text(j < 2 ? " " : "\n");
        }
    }
    fail(1, "compare: a difference was found");
}

/* Answers the bits of the number lent, as they are after the call. */
static uint32_t compare_field(struct drive *drive, int16_t sample, uint8_t range)
{
    uint64_t dirt = random_next(&drive->random);
    union lent_field found = {.bits = {(uint32_t)dirt, (uint32_t)(dirt >> 32), (uint32_t)(dirt >> 16)}};
    union lent_field first = found;
    union lent_field second = found;
    uint8_t first_answer = lpmag_field(sample, range, &first.numbers[1]);
    uint8_t second_answer = second_field(sample, range, &second.numbers[1]);
    drive->calls[FIELD]++;

    const char *wrong = NULL;
    if (first_answer != second_answer)
        wrong = first_answer == 0   ? "the first answers 0, the second doesn't"
                : second_answer == 0 ? "the second answers 0, the first doesn't"
                                     : "both refuse, with different answers";
    else if (first.bits[0] != found.bits[0] || first.bits[2] != found.bits[2])
        wrong = "the first changes bytes outside its room";
    else if (second.bits[0] != found.bits[0] || second.bits[2] != found.bits[2])
        wrong = "the second changes bytes outside its room";
    else if (first.bits[1] != second.bits[1])
        wrong = "the numbers differ";
    else if (first_answer != 0 && first.bits[1] != found.bits[1])
        wrong = "both change a number that has to stay as found";
    else if (first_answer == 0 && !exact_field(first.bits[1], sample, range))
        wrong = "both agree, but 512 times the field isn't the sample times 4 to the range";
    else if (first_answer != (range > 7 || sample < -2048 || sample > 2047 ? LPMAG_NO_SUCH_PLACE : 0))
        wrong = "both agree, but the answer has to be another";
    if (wrong != NULL)
        report_field(sample, range, wrong, &found, &first, &second);

    drive->kept_rooms += first_answer != 0;
    return first.bits[1];
}

/* 01, "Sixteen examples to be proved": sample -2,048 at range 7 is -65,536 nT,
 * 1 at range 0 is 1/512 nT. */
static void compare_field_examples(struct drive *drive)
{
    begin(drive, "the printed examples of the field");
    union lent_field minus_65536 = {.numbers = {-65536.0f}};
    union lent_field one_512th = {.numbers = {1.0f / 512.0f}};
    if (compare_field(drive, -2048, 7) != minus_65536.bits[0] ||
        compare_field(drive, 1, 0) != one_512th.bits[0])
        fail(1, "compare: both implementations differ from a printed example of the field");
}

static void compare_every_field(struct drive *drive)
{
    begin(drive, "the field of every sample at every range");
    for (unsigned range = 0; range < 256; range++)
        for (int sample = INT16_MIN; sample <= INT16_MAX; sample++)
            compare_field(drive, (int16_t)sample, (uint8_t)range);
}

void drive_mag(struct drive *drive)
{
    compare_sizes(drive);
    compare_every_number(drive);
    compare_bursts(drive);
    compare_field_examples(drive);
    compare_every_field(drive);
}
