#include "records.h"

#include "base/text.h"
#include "generate.h"

/* What the good records show, half and full bursts among them. The subcom word and all that isn't
 * opened comes from the seed. */
static const struct content good[] = {
    /* count, day, millisecond, flags, code, second code, subcom, level, quality */
    {0, 1, 0, {1, 1, 1}, 0x00, 0x00, 0, 0x00000000, 0x00000000},                /* type 0 */
    {7325806, 200, 7348338, {1, 1, 2}, 0x01, 0x00, 0, 0xC2F00000, 0x41280000},  /* type 1 */
    {7325807, 200, 7350338, {1, 2, 1}, 0x82, 0x00, 0, 0xC2F00000, 0x80000000},  /* type 2, minus zero */
    {7325808, 200, 7352338, {1, 2, 2}, 0x49, 0x00, 0, 0x80000000, 0x3F800000},  /* type 9 */
    {7325809, 200, 7354338, {2, 1, 1}, 0xC0, 0x00, 0, 0x7F800000, 0x41280000},  /* type 0, infinity */
    {7325810, 200, 7356338, {2, 1, 2}, 0x11, 0x00, 0, 0xFF800000, 0x7F800000},  /* type 17, infinities */
    {7325811, 200, 7358338, {2, 2, 1}, 0x5B, 0x00, 0, 0x7FC00000, 0xC2F00000},  /* type 27, quiet NaN */
    {7325812, 200, 7360338, {2, 2, 2}, 0xA2, 0x00, 0, 0x41280000, 0x7F800001},  /* type 34, signalling NaN */
    {7325813, 200, 7362338, {1, 1, 1}, 0x23, 0x00, 0, 0xFFFFFFFF, 0xFFC00000},  /* type 35, signed NaN */
    {7325814, 200, 7364338, {1, 1, 2}, 0xE3, 0x00, 0, 0x7F7FFFFF, 0xFF7FFFFF},  /* type 35, largest finite */
    {7325815, 200, 7366338, {1, 2, 1}, 0x24, 0x00, 0, 0x00000001, 0x807FFFFF},  /* half, type 36, subnormal */
    {7325816, 200, 7368338, {1, 2, 2}, 0xA4, 0x25, 0, 0x00800000, 0x80800000},  /* full, type 36, least */
    {7325817, 366, 86399999, {2, 1, 1}, 0x67, 0x00, 0, 0x42C80000, 0x3DCCCCCD}, /* half, type 39 */
    {7325818, 1, 1999, {2, 1, 2}, 0xF8, 0x38, 0, 0x7FBFFFFF, 0x7F7FFFFF},       /* full, type 56 */
    {7325819, 1, 3999, {2, 2, 1}, 0x39, 0x00, 0, 0x41280000, 0x41280000},       /* half, type 57 */
    {65535, 32, 65535, {2, 2, 2}, 0x79, 0x00, 0, 0x00000080, 0x80000000},       /* half, type 57 */
    {65536, 256, 65536, {1, 1, 1}, 0x3E, 0x00, 0, 0x41280000, 0x00800000},      /* half, type 62 */
    {255, 255, 255, {1, 1, 2}, 0xBE, 0xFE, 0, 0xFF800001, 0x40490FDB},          /* full, type 62 */
    {256, 257, 256, {1, 2, 1}, 0xFF, 0x00, 0, 0x7FFFFFFF, 0xC0490FDB},          /* type 63, all top bits */
    {8388608, 365, 43200000, {2, 2, 1}, 0x3F, 0x00, 0, 0x3EAAAAAB, 0x80000001}, /* type 63, none */
    {16777214, 2, 86399998, {1, 2, 2}, 0xDF, 0x00, 0, 0x41280000, 0xFF800000},  /* type 31 */
    {16777215, 366, 86399999, {2, 1, 2}, 0x63, 0x00, 0, 0x80000000, 0x80000000}, /* type 35 */
};
enum { GOOD = sizeof good / sizeof good[0] };

/* Each rule from 3 to 11 is broken in three forms. */
enum { FIRST_RULE = 3, RULES = GENERATE_LAST_RULE - FIRST_RULE + 1, FORMS = 3 };

/* Records that break two rules: the first one is the answer. */
static const unsigned both[][2] = {{3, 11}, {4, 5}, {6, 7}, {7, 8}, {9, 10}, {10, 11}};
enum { BOTH = sizeof both / sizeof both[0] };

/* The short tail: the first bytes of a good record. */
#define TAIL 100

static void make_any(struct random *random, uint8_t *record)
{
    struct content content = generate_content(random);
    generate_record(random, &content, record);
}

static void print_good(struct random *random, unsigned number)
{
    uint8_t record[GENERATE_RECORD];
    struct content content = good[number];
    content.subcom = (uint16_t)random_next(random);
    generate_record(random, &content, record);
    print_bytes(record, sizeof record);
}

/* The first RULES * FORMS refused records break one rule, then come those that
 * break two. */
static void print_refused(struct random *random, unsigned number)
{
    uint8_t record[GENERATE_LONGEST];
    make_any(random, record);
    if (number < RULES * FORMS) {
        unsigned rule = FIRST_RULE + number % RULES;
        spoil_form(random, record, rule, number / RULES * spoil_forms(rule) / FORMS);
    } else {
        spoil(random, record, both[number - RULES * FORMS][0]);
        spoil(random, record, both[number - RULES * FORMS][1]);
    }
    print_bytes(record, GENERATE_RECORD);
}

void print_records(uint64_t seed)
{
    struct random random = {seed};
    for (unsigned number = 0; number < GOOD || number < RULES * FORMS + BOTH; number++) {
        if (number < GOOD)
            print_good(&random, number);
        if (number < RULES * FORMS + BOTH)
            print_refused(&random, number);
    }

    uint8_t record[GENERATE_RECORD];
    make_any(&random, record);
    print_bytes(record, TAIL);
}
