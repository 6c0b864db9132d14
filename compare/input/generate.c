#include "generate.h"

#include <system.h>

/* ---- good records ----------------------------------------------------- */

/* 01, "The record": where the fields stand. */
enum {
    SYNC = 0,
    HEADER = 4,
    COUNT = 6,
    SPARE = 9,
    CODE = 286,
    SUBCOM = 287,
    SECOND_CODE = 286 + 85, /* 000 section 2.1.3 */
    DAY = 456,
    MILLISECOND = 458,
    LEVEL = 462,
    QUALITY = 466,
    STATUS = 470
};

#define LAST_COUNT 16777215
#define LAST_DAY 366
#define LAST_MILLISECOND 86399999

static void put(uint8_t *record, size_t at, size_t size, uint32_t number)
{
    for (size_t i = size; i > 0; i--) {
        record[at + i - 1] = (uint8_t)number;
        number >>= 8;
    }
}

/* Any number from low to high, often one of the two. */
static uint32_t often_an_end(struct random *random, uint32_t low, uint32_t high)
{
    switch (random_below(random, 8)) {
    case 0:
        return low;
    case 1:
        return high;
    default:
        return random_between(random, low, high);
    }
}

/* Any bits of an IEEE single, often of a sort that is rarely met by chance. */
static uint32_t reading(struct random *random)
{
    static const uint32_t corners[] = {
        0x00000000, 0x80000000, /* zeros */
        0x00000001, 0x807FFFFF, /* subnormal */
        0x00800000, 0x80800000, /* least normal */
        0x7F7FFFFF, 0xFF7FFFFF, /* largest finite */
        0x7F800000, 0xFF800000, /* infinities */
        0x7FC00000, 0xFFC00000, /* quiet NaN */
        0x7F800001, 0xFFBFFFFF, /* signalling NaN */
        0x7FFFFFFF, 0xFFFFFFFF, /* NaN, all ones */
    };
    uint32_t any = (uint32_t)random_next(random);
    switch (random_below(random, 8)) {
    case 0:
    case 1:
        return corners[random_below(random, sizeof corners / sizeof corners[0])];
    case 2:
        return any | 0x7F800000; /* an infinity or NaN */
    case 3:
        return any & 0x807FFFFF; /* a zero or subnormal */
    default:
        return any;
    }
}

/* Any top bits. */
static uint8_t any_code(struct random *random, uint8_t type)
{
    return (uint8_t)(random_below(random, 4) << 6 | type);
}

static uint8_t any_burst_code(struct random *random)
{
    return any_code(random, burst_type(random_below(random, BURST_TYPES)));
}

/* All but the second type byte, which is 0. */
static struct content any_content(struct random *random)
{
    struct content content = {0};
    content.count = often_an_end(random, 0, LAST_COUNT);
    content.day = (uint16_t)often_an_end(random, 1, LAST_DAY);
    content.millisecond = often_an_end(random, 0, LAST_MILLISECOND);
    for (size_t i = 0; i < 3; i++)
        content.flags[i] = (uint8_t)random_between(random, 1, 2);

    /* Sixty types are defined: 0-57, 62 and 63. */
    uint32_t type = random_below(random, 60);
    if (type > 57)
        type += 4;
    content.code = any_code(random, (uint8_t)type);

    content.subcom = (uint16_t)random_next(random);
    content.level = reading(random);
    content.quality = reading(random);
    return content;
}

/* Any second type byte that a full burst can have. */
static void complete(struct random *random, struct content *content)
{
    if (is_full_burst(content->code))
        content->second_code = any_burst_code(random);
}

struct content generate_content(struct random *random)
{
    struct content content = any_content(random);
    complete(random, &content);
    return content;
}

struct content generate_content_of(struct random *random, uint32_t count, uint8_t type)
{
    struct content content = any_content(random);
    content.count = count;
    content.code = any_code(random, type);
    complete(random, &content);
    return content;
}

struct content generate_content_with(struct random *random, uint32_t count, uint8_t code, uint8_t second_code)
{
    struct content content = any_content(random);
    content.count = count;
    content.code = code;
    content.second_code = second_code;
    return content;
}

uint8_t other_type(struct random *random)
{
    uint8_t type = (uint8_t)random_between(random, 36, 59);
    return type <= 57 ? type : (uint8_t)(type + 4);
}

uint8_t burst_type(uint32_t which)
{
    return (uint8_t)(which == BURST_TYPES - 1 ? 62 : 36 + which);
}

bool is_burst_type(uint8_t type)
{
    return type >= 36 && type <= 62 && (type <= 57 || type == 62);
}

bool is_full_burst(uint8_t code)
{
    return code >= TOP_BIT && is_burst_type(code % 64);
}

void generate_record(struct random *random, const struct content *content, uint8_t *record)
{
    switch (random_below(random, 16)) {
    case 0:
        memset(record, 0x00, GENERATE_RECORD);
        break;
    case 1:
        memset(record, 0xFF, GENERATE_RECORD);
        break;
    default:
        random_fill(random, record, GENERATE_RECORD);
    }

    put(record, SYNC, 4, 0x1ACFFC1D);
    put(record, HEADER, 2, 0x66C5);
    put(record, COUNT, 3, content->count);
    put(record, SPARE, 1, 0);
    put(record, CODE, 1, content->code);
    if (is_full_burst(content->code))
        put(record, SECOND_CODE, 1, content->second_code);
    put(record, SUBCOM, 2, content->subcom);
    put(record, DAY, 2, content->day);
    put(record, MILLISECOND, 4, content->millisecond);
    put(record, LEVEL, 4, content->level);
    put(record, QUALITY, 4, content->quality);
    put(record, STATUS, 2, content->flags[0] * 16u + content->flags[1] * 4u + content->flags[2]);
}

void generate_set_count(uint8_t *record, uint32_t count)
{
    put(record, COUNT, 3, count);
}

/* ---- records that break a rule ---------------------------------------- */

/* The lengths of rule 2: near 472, near 0, 472 less and more 256, the packet
 * and all before it, two records. */
static const size_t wrong_lengths[] = {0, 1, 3, 10, 216, 286, 454, 471, 473, 728, 944, GENERATE_LONGEST};
enum { WRONG_LENGTHS = sizeof wrong_lengths / sizeof wrong_lengths[0] };

/* The types that no burst packet has. */
enum { NO_BURST_TYPES = 64 - BURST_TYPES };

/* Changes one bit, counted from 0 at the most significant bit of byte `at`. */
static void flip(uint8_t *record, size_t at, uint32_t bit)
{
    record[at + bit / 8] ^= (uint8_t)(0x80 >> bit % 8);
}

static size_t spoil_length(struct random *random, uint8_t *record, uint32_t form)
{
    size_t length;
    if (form < WRONG_LENGTHS)
        length = wrong_lengths[form];
    else if (form == WRONG_LENGTHS)
        length = random_below(random, GENERATE_RECORD);
    else
        length = random_between(random, GENERATE_RECORD + 1, GENERATE_LONGEST);
    random_fill(random, record + GENERATE_RECORD, GENERATE_LONGEST - GENERATE_RECORD);
    return length;
}

static void spoil_sync(struct random *random, uint8_t *record, uint32_t form)
{
    if (form < 32) {
        flip(record, SYNC, form);
        return;
    }
    uint32_t sync;
    switch (form) {
    case 32:
        sync = 0x1DFCCF1A; /* least significant byte first */
        break;
    case 33:
        sync = 0x00000000;
        break;
    case 34:
        sync = 0xE53003E2; /* every bit the other */
        break;
    default:
        do
            sync = (uint32_t)random_next(random);
        while (sync == 0x1ACFFC1D);
    }
    put(record, SYNC, 4, sync);
}

/* Version and spacecraft are the first ten bits of the header, the rate is the
 * last six. */
static void spoil_version_or_spacecraft(struct random *random, uint8_t *record, uint32_t form)
{
    if (form < 10) {
        flip(record, HEADER, form);
        return;
    }
    uint32_t right = 0x66C5 >> 6;
    uint32_t wrong;
    switch (form) {
    case 10:
        wrong = 0;
        break;
    case 11: /* another version */
        wrong = right ^ random_between(random, 1, 3) << 8;
        break;
    case 12: /* another spacecraft */
        wrong = right ^ random_between(random, 1, 255);
        break;
    default: /* any other */
        wrong = right ^ random_between(random, 1, 1023);
    }
    record[HEADER] = (uint8_t)(wrong >> 2);
    record[HEADER + 1] = (uint8_t)(wrong << 6 | record[HEADER + 1] % 64);
}

static void spoil_rate(struct random *random, uint8_t *record, uint32_t form)
{
    if (form < 6)
        flip(record, HEADER, 10 + form);
    else
        record[HEADER + 1] ^= (uint8_t)random_between(random, 1, 63);
}

static void spoil_spare_byte(struct random *random, uint8_t *record, uint32_t form)
{
    if (form < 8)
        flip(record, SPARE, form);
    else
        record[SPARE] = (uint8_t)random_between(random, 1, 255);
}

static void spoil_day(struct random *random, uint8_t *record, uint32_t form)
{
    uint32_t days[4] = {0, LAST_DAY + 1, 65535, random_between(random, LAST_DAY + 1, 65535)};
    put(record, DAY, 2, days[form]);
}

static void spoil_millisecond(struct random *random, uint8_t *record, uint32_t form)
{
    uint32_t milliseconds[4] = {LAST_MILLISECOND + 1, 0x80000000, 0xFFFFFFFF,
                                random_between(random, LAST_MILLISECOND + 1, 0xFFFFFFFF)};
    put(record, MILLISECOND, 4, milliseconds[form]);
}

static void spoil_spare_bits(struct random *random, uint8_t *record, uint32_t form)
{
    if (form < 10) {
        flip(record, STATUS, form);
        return;
    }
    uint32_t spare = random_between(random, 1, 1023);
    record[STATUS] = (uint8_t)(spare >> 2);
    record[STATUS + 1] = (uint8_t)(spare << 6 | record[STATUS + 1] % 64);
}

static void set_flag(uint8_t *record, uint32_t which, uint32_t flag)
{
    uint32_t shift = 4 - 2 * which;
    record[STATUS + 1] = (uint8_t)((record[STATUS + 1] & ~(3u << shift)) | flag << shift);
}

static void spoil_flags(struct random *random, uint8_t *record, uint32_t form)
{
    if (form < 6) {
        set_flag(record, form / 2, form % 2 * 3);
        return;
    }
    /* Two flags wrong, or all three. */
    uint32_t right = form == 8 ? 3 : random_below(random, 3);
    for (uint32_t which = 0; which < 3; which++)
        if (which != right)
            set_flag(record, which, random_below(random, 2) * 3);
}

/* A type that isn't defined; or a full burst of any type, with each second type that it can't
 * have, under any top bits. */
static void spoil_type(struct random *random, uint8_t *record, uint32_t form)
{
    if (form < 4 * 4) {
        record[CODE] = (uint8_t)(form / 4 << 6 | (58 + form % 4));
        return;
    }
    uint8_t type = 0;
    for (uint32_t left = form - 4 * 4; left > 0 || is_burst_type(type); type++)
        left -= !is_burst_type(type);
    record[CODE] = any_burst_code(random) | TOP_BIT;
    record[SECOND_CODE] = any_code(random, type);
}

/* By rule: in how many forms it can be broken, and what breaks it but for rule 2. */
static const struct {
    uint32_t forms;
    void (*spoil)(struct random *random, uint8_t *record, uint32_t form);
} rules[GENERATE_LAST_RULE + 1] = {
    [2] = {WRONG_LENGTHS + 2, NULL},
    [3] = {32 + 4, spoil_sync},
    [4] = {10 + 4, spoil_version_or_spacecraft},
    [5] = {6 + 1, spoil_rate},
    [6] = {8 + 1, spoil_spare_byte},
    [7] = {4, spoil_day},
    [8] = {4, spoil_millisecond},
    [9] = {10 + 1, spoil_spare_bits},
    [10] = {3 * 2 + 3, spoil_flags},
    [11] = {4 * 4 + NO_BURST_TYPES, spoil_type},
};

uint32_t spoil_forms(unsigned rule)
{
    return rule <= GENERATE_LAST_RULE ? rules[rule].forms : 0;
}

size_t spoil_form(struct random *random, uint8_t *record, unsigned rule, uint32_t form)
{
    if (rule == 2)
        return spoil_length(random, record, form);
    rules[rule].spoil(random, record, form);
    return GENERATE_RECORD;
}

size_t spoil(struct random *random, uint8_t *record, unsigned rule)
{
    return spoil_form(random, record, rule, random_below(random, spoil_forms(rule)));
}

/* ---- MAG bytes -------------------------------------------------------- */

void generate_mag(uint8_t status, const uint16_t *numbers, uint8_t *mag)
{
    memset(mag, 0, 82);
    mag[0] = status;
    for (size_t bit = 0; bit < 54 * 12; bit++)
        if (numbers[bit / 12] >> bit % 12 & 1)
            mag[1 + bit / 8] |= (uint8_t)(1 << bit % 8);
}
