/* The record: check, fields, packet, the packet's kind, its MAG bytes and burst packets, on
 * good, broken and random records. */
#include "base/text.h"
#include "driver/differ.h"
#include "driver/mag.h"
#include "driver/records.h"
#include "second/record.h"
#include "subjects.h"

#include <system.h>

/* The answer isn't known from the way the record was made. */
#define ANY (-1)

/* ---- one record ------------------------------------------------------- */

/* A size that isn't the right one. */
static size_t wrong_size(struct random *random, size_t right)
{
    switch (random_below(random, 4)) {
    case 0:
        return 0;
    case 1:
        return right - 1;
    case 2:
        return right + 1;
    default: {
        size_t size = random_below(random, 2 * (uint32_t)right);
        return size < right ? size : size + 1;
    }
    }
}

static void compare_fields(struct drive *drive, const uint8_t *record, size_t length, uint8_t refusal,
                           const struct content *content)
{
    struct question question = {FIELDS, record, length, {{NULL, 0}}};
    struct rooms rooms;
    rooms_make(&rooms, &drive->random, sizeof(struct lpmag_fields));
    uint8_t first = lpmag_fields(room_of_struct(&rooms, &rooms.first), record, length);
    uint8_t second = second_fields(room_of_struct(&rooms, &rooms.second), record, length);
    same_answer(drive, &question, first, second);
    expect_answer(drive, &question, first, refusal);
    same_rooms(drive, &question, &rooms, first != LPMAG_OK);

    if (content != NULL && first == LPMAG_OK) {
        struct lpmag_fields fields = fields_of(content);
        expect_bytes(drive, &question, "the fields aren't what the record was made of",
                     room_of_struct(&rooms, &rooms.first), &fields, sizeof fields);
    }
}

static void compare_packet(struct drive *drive, const uint8_t *record, size_t length, size_t room_length,
                           uint8_t refusal)
{
    struct question question = {PACKET, record, length, {{"room", room_length}}};
    struct rooms rooms;
    rooms_make(&rooms, &drive->random, room_length);
    uint8_t first = lpmag_packet(record, length, room_of_bytes(&rooms, &rooms.first), room_length);
    uint8_t second = second_packet(record, length, room_of_bytes(&rooms, &rooms.second), room_length);
    same_answer(drive, &question, first, second);
    expect_answer(drive, &question, first, room_length == LPMAG_PACKET ? refusal : 1);
    same_rooms(drive, &question, &rooms, first != LPMAG_OK);
    drive->refusals[1] += first == 1;

    if (first == LPMAG_OK)
        expect_bytes(drive, &question, "the room isn't the packet's place in the record",
                     room_of_bytes(&rooms, &rooms.first), record + LPMAG_PACKET_AT, LPMAG_PACKET);
}

static void compare_kind(struct drive *drive, const uint8_t *packet, size_t length)
{
    uint8_t first = lpmag_kind(packet, length);
    uint8_t second = second_kind(packet, length);
    struct question question = {KIND, packet, length, {{NULL, 0}}};
    same_answer(drive, &question, first, second);
    expect_answer(drive, &question, first,
                  length == LPMAG_PACKET ? kind_of(packet[0], packet[85]) : LPMAG_UNDEFINED);
    if (length != LPMAG_PACKET)
        return;
    drive->kinds[first]++;
    if (is_full_burst(packet[0]))
        drive->second_codes[first == LPMAG_FULL_BURST][packet[85]]++;
}

/* Every function of a record. `expected` is the answer of check, or ANY;
 * `content` what the record was made of, or null. Answers what check does. */
static uint8_t compare_record(struct drive *drive, const uint8_t *made, size_t length, int expected,
                              const struct content *content)
{
    const uint8_t *record = lend_bytes(&drive->random, made, length);
    struct question question = {CHECK, record, length, {{NULL, 0}}};
    uint8_t refusal = lpmag_check(record, length);
    same_answer(drive, &question, refusal, second_check(record, length));
    if (expected != ANY)
        expect_answer(drive, &question, refusal, (uint64_t)expected);
    drive->records++;
    drive->refusals[refusal]++;

    compare_fields(drive, record, length, refusal, content);
    compare_packet(drive, record, length, LPMAG_PACKET, refusal);
    compare_packet(drive, record, length, wrong_size(&drive->random, LPMAG_PACKET), refusal);

    /* These ask nothing of the record around their bytes. */
    if (length >= LPMAG_PACKET_AT + LPMAG_PACKET) {
        const uint8_t *packet = record + LPMAG_PACKET_AT;
        compare_kind(drive, packet, LPMAG_PACKET);
        compare_mag(drive, packet + LPMAG_MAG_AT, LPMAG_MAG, LPMAG_SAMPLES);
    }
    compare_burst(drive, record, length, (uint8_t)random_below(&drive->random, 2), LPMAG_SAMPLES);

    if (length > 0)
        expect_bytes(drive, &question, "the record's bytes were changed", record, made, length);
    return refusal;
}

/* ---- many records ----------------------------------------------------- */

static void make_good(struct drive *drive, uint8_t *record)
{
    struct content content = generate_content(&drive->random);
    generate_record(&drive->random, &content, record);
}

static void compare_good(struct drive *drive)
{
    uint8_t record[GENERATE_RECORD];
    begin(drive, "good records");
    for (unsigned i = 0; i < 300000; i++) {
        struct content content = generate_content(&drive->random);
        generate_record(&drive->random, &content, record);
        compare_record(drive, record, sizeof record, 0, &content);
    }
}

static void compare_one_rule_broken(struct drive *drive)
{
    uint8_t record[GENERATE_LONGEST];
    begin(drive, "records that break one rule, in each form");
    for (unsigned rule = GENERATE_FIRST_RULE; rule <= GENERATE_LAST_RULE; rule++)
        for (uint32_t form = 0; form < spoil_forms(rule); form++)
            for (unsigned i = 0; i < 1600; i++) {
                make_good(drive, record);
                size_t length = spoil_form(&drive->random, record, rule, form);
                compare_record(drive, record, length, (int)rule, NULL);
            }
}

/* The rules broken are a set of bits; the lowest has to win. */
static void compare_rules_broken(struct drive *drive, uint32_t rules)
{
    uint8_t record[GENERATE_LONGEST];
    size_t length = GENERATE_RECORD;
    unsigned lowest = 0;
    make_good(drive, record);
    for (unsigned rule = GENERATE_LAST_RULE; rule >= GENERATE_FIRST_RULE; rule--)
        if (rules >> rule & 1) {
            length = spoil(&drive->random, record, rule);
            lowest = rule;
        }
    compare_record(drive, record, length, (int)lowest, NULL);
}

static void compare_several_rules_broken(struct drive *drive)
{
    begin(drive, "records that break two rules, every pair");
    for (unsigned one = GENERATE_FIRST_RULE; one <= GENERATE_LAST_RULE; one++)
        for (unsigned other = one + 1; other <= GENERATE_LAST_RULE; other++)
            for (unsigned i = 0; i < 4000; i++)
                compare_rules_broken(drive, 1u << one | 1u << other);

    begin(drive, "records that break any set of rules");
    for (uint32_t set = 0; set < 1u << (GENERATE_LAST_RULE - GENERATE_FIRST_RULE + 1); set++)
        for (unsigned i = 0; i < 60; i++)
            compare_rules_broken(drive, set << GENERATE_FIRST_RULE);
}

static void compare_bit_flips(struct drive *drive)
{
    uint8_t record[GENERATE_RECORD];
    begin(drive, "good records with one bit changed, every bit");
    for (unsigned i = 0; i < 40; i++) {
        make_good(drive, record);
        for (size_t bit = 0; bit < 8 * sizeof record; bit++) {
            uint8_t changed = (uint8_t)(1 << bit % 8);
            record[bit / 8] ^= changed;
            compare_record(drive, record, sizeof record, ANY, NULL);
            record[bit / 8] ^= changed;
        }
    }
}

static void compare_lengths(struct drive *drive)
{
    uint8_t record[GENERATE_LONGEST];
    begin(drive, "good records cut short or lengthened, every length");
    for (size_t length = 0; length <= sizeof record; length++)
        for (unsigned i = 0; i < 20; i++) {
            random_fill(&drive->random, record, sizeof record);
            make_good(drive, record);
            compare_record(drive, record, length, length == LPMAG_RECORD ? 0 : 2, NULL);
        }
}

static void compare_random(struct drive *drive)
{
    /* The bytes that the rules look at. */
    static const size_t looked_at[] = {0, 1, 2, 3, 4, 5, 9, 286, 371, 456, 457, 458, 459, 460, 461, 470, 471};
    uint8_t record[GENERATE_LONGEST];

    begin(drive, "random bytes");
    for (unsigned i = 0; i < 40000; i++) {
        size_t length = i % 2 == 0 ? LPMAG_RECORD : random_between(&drive->random, 0, sizeof record);
        random_fill(&drive->random, record, length);
        compare_record(drive, record, length, ANY, NULL);
    }

    begin(drive, "good records with random bytes where the rules look");
    for (unsigned i = 0; i < 60000; i++) {
        make_good(drive, record);
        for (size_t j = 0; j < sizeof looked_at / sizeof looked_at[0]; j++)
            if (random_once_in(&drive->random, 12))
                record[looked_at[j]] = (uint8_t)random_next(&drive->random);
        compare_record(drive, record, LPMAG_RECORD, ANY, NULL);
    }
}

_Noreturn static void refuse_passes(const char *phase, unsigned passes, unsigned passing)
{
    print_text(phase);
    print_text(": ");
    print_number(passes);
    print_text(" pass, but it has to be ");
    print_number(passing);
    print_text("\n");
    fail(1, "compare: both implementations pass another number of values than the papers");
}

/* Every value of one or two bytes of a record that is good otherwise; so many
 * of them have to pass. */
static void compare_every_value(struct drive *drive, const char *phase, size_t at, size_t size,
                                unsigned passing)
{
    uint8_t record[GENERATE_RECORD];
    unsigned passes = 0;
    begin(drive, phase);
    for (uint32_t value = 0; value < 1u << 8 * size; value++) {
        make_good(drive, record);
        for (size_t i = 0; i < size; i++)
            record[at + i] = (uint8_t)(value >> 8 * (size - 1 - i));
        passes += compare_record(drive, record, sizeof record, ANY, NULL) == LPMAG_OK;
    }
    if (passes != passing)
        refuse_passes(phase, passes, passing);
}

/* Every frame code with every byte 85. It is looked at in the frames of 23 types with the top bit
 * set, of which 23 types under any top bits pass. */
static void compare_codes(struct drive *drive)
{
    enum { REAL_TIME = 36 * 4 * 256, DUMPS = 4 * 256, HALF = 23 * 2 * 256, FULL = 23 * 2 * 23 * 4 };
    const char *phase = "every frame code with every byte 85";
    uint8_t record[GENERATE_RECORD];
    unsigned passes = 0;
    begin(drive, phase);
    for (unsigned code = 0; code < 256; code++)
        for (unsigned second_code = 0; second_code < 256; second_code++) {
            struct content content = generate_content_with(
                &drive->random, random_below(&drive->random, 1u << 24), (uint8_t)code, (uint8_t)second_code);
            uint8_t kind = kind_of((uint8_t)code, (uint8_t)second_code);
            generate_record(&drive->random, &content, record);
            record[LPMAG_PACKET_AT + 85] = (uint8_t)second_code;
            passes += compare_record(drive, record, sizeof record, kind == LPMAG_UNDEFINED ? 11 : 0,
                                     &content) == LPMAG_OK;
        }
    if (passes != REAL_TIME + DUMPS + HALF + FULL)
        refuse_passes(phase, passes, REAL_TIME + DUMPS + HALF + FULL);
}

static void compare_every_value_looked_at(struct drive *drive)
{
    compare_every_value(drive, "every sync byte 0", 0, 1, 1);
    compare_every_value(drive, "every sync byte 1", 1, 1, 1);
    compare_every_value(drive, "every sync byte 2", 2, 1, 1);
    compare_every_value(drive, "every sync byte 3", 3, 1, 1);
    compare_every_value(drive, "every version, spacecraft and rate", 4, 2, 1);
    compare_every_value(drive, "every byte 9", 9, 1, 1);
    compare_every_value(drive, "every day", 456, 2, 366);
    compare_every_value(drive, "every status word", 470, 2, 2 * 2 * 2);
}

static void compare_milliseconds(struct drive *drive)
{
    static const uint32_t near[] = {0, 86400000, 0x80000000};
    uint8_t record[GENERATE_RECORD];
    begin(drive, "milliseconds of the day");
    for (unsigned i = 0; i < 20000; i++) {
        uint32_t millisecond = (uint32_t)random_next(&drive->random);
        if (i % 2 == 0)
            millisecond = near[i / 2 % 3] + random_below(&drive->random, 9) - 4;
        struct content content = generate_content(&drive->random);
        content.millisecond = millisecond;
        generate_record(&drive->random, &content, record);
        compare_record(drive, record, sizeof record, millisecond < 86400000 ? 0 : 8, &content);
    }
}

/* Packets alone, of the right size and of others. */
static void compare_kinds(struct drive *drive)
{
    static const size_t lengths[] = {0, 1, 2, 3, 82, 83, 167, 168, 169, 170, 336, 424, 472};
    uint8_t made[472];
    begin(drive, "the kind of every frame code, in packets of many sizes");
    for (unsigned code = 0; code < 256; code++)
        for (size_t i = 0; i < sizeof lengths / sizeof lengths[0]; i++) {
            random_fill(&drive->random, made, sizeof made);
            made[0] = (uint8_t)code;
            compare_kind(drive, lend_bytes(&drive->random, made, lengths[i]), lengths[i]);
        }
}

/* ---- the words of a refusal ------------------------------------------- */

/* 01, "Numbers a refused record gets", the second column, with 12 and 14 of 02's request 1 (13
 * is gone by request 11) and what its request 2 adds to 11; none before the first. */
static const char *expected_words(unsigned number)
{
    static const char *const words[] = {
        [0] = "",
        [1] = "a lent buffer isn't of its size, or the state breaks the list below",
        [2] = "length isn't 472",
        [3] = "sync differs",
        [4] = "version or spacecraft differs",
        [5] = "rate differs",
        [6] = "byte 9 isn't 0",
        [7] = "day outside 1-366",
        [8] = "millisecond above 86,399,999",
        [9] = "a spare status bit is set",
        [10] = "a flag is 00 or 11",
        [11] = "type is 58-61, or a second type other than 36 to 57 and 62",
        [12] = "something was accepted before and the record isn't later",
        [13] = "",
        [14] = "a turn past 4,095",
    };
    return number < REFUSALS ? words[number] : words[0];
}

static void compare_words(struct drive *drive, uint8_t number, size_t room_length)
{
    struct question question = {REFUSAL_WORDS, NULL, 0, {{"number", number}, {"room", room_length}}};
    struct rooms rooms;
    bool fits = room_length >= LPMAG_WORDS;
    rooms_make(&rooms, &drive->random, room_length);
    size_t first = lpmag_refusal_words(number, room_of_bytes(&rooms, &rooms.first), room_length);
    size_t second = second_refusal_words(number, room_of_bytes(&rooms, &rooms.second), room_length);
    same_answer(drive, &question, first, second);
    same_rooms(drive, &question, &rooms, !fits);

    size_t length = 0;
    uint8_t *expected = room_of_bytes(&rooms, &rooms.found);
    for (const char *words = expected_words(number); fits && words[length] != '\0'; length++)
        expected[length] = (uint8_t)words[length];
    expect_answer(drive, &question, first, length);
    if (fits) {
        expected[length] = 0;
        expect_bytes(drive, &question, "the room isn't 01's words, a 0 and what was found",
                     room_of_bytes(&rooms, &rooms.first), expected, room_length);
        drive->words[length > 0 ? number : 0]++;
    } else {
        drive->words_not_given++;
    }
}

static void compare_every_word(struct drive *drive)
{
    begin(drive, "the words of every refusal and of every other number, in rooms of many sizes");
    for (unsigned number = 0; number < 256; number++)
        for (size_t room_length = 0; room_length <= 200; room_length++)
            compare_words(drive, (uint8_t)number, room_length);
}

void drive_record(struct drive *drive)
{
    compare_good(drive);
    compare_one_rule_broken(drive);
    compare_several_rules_broken(drive);
    compare_bit_flips(drive);
    compare_lengths(drive);
    compare_random(drive);
    compare_every_value_looked_at(drive);
    compare_codes(drive);
    compare_milliseconds(drive);
    compare_kinds(drive);
    compare_every_word(drive);
}
