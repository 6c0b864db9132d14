/* Records made from a seed: good ones, and ones that break a rule of 01,
 * "Numbers a refused record gets", on purpose. */
#ifndef GENERATE_H
#define GENERATE_H

#include "base/random.h"

#include <stdbool.h>
#include <stddef.h>
#include <stdint.h>

/* The seed when none is given. */
#define GENERATE_SEED 19990719

/* The room a record is made in: rule 2 may make it longer than 472 bytes. */
#define GENERATE_RECORD 472
#define GENERATE_LONGEST 1000

/* The rules a record can break. */
#define GENERATE_FIRST_RULE 2
#define GENERATE_LAST_RULE 11

/* What a record says in the bytes that are opened. */
struct content {
    uint32_t count;       /* 24 bits */
    uint16_t day;         /* of the year */
    uint32_t millisecond; /* of the day */
    uint8_t flags[3];     /* two bits each */
    uint8_t code;         /* the frame code: two top bits and the type */
    uint8_t second_code;  /* of a full burst the type byte of its second packet, else anything */
    uint16_t subcom;
    uint32_t level; /* signal level and quality, the bits of an IEEE single */
    uint32_t quality;
};

/* Any content that passes rules 2 to 11; any of one count and type; and of one count and two type
 * bytes, of which only a full burst has the second. */
struct content generate_content(struct random *random);
struct content generate_content_of(struct random *random, uint32_t count, uint8_t type);
struct content generate_content_with(struct random *random, uint32_t count, uint8_t code,
                                     uint8_t second_code);

/* Any type of a frame that isn't real-time: 36-57, 62, 63. */
uint8_t other_type(struct random *random);

/* The types of burst packets, 36-57 and 62, in their order; and whether a type is one of them. */
enum { BURST_TYPES = 23 };
uint8_t burst_type(uint32_t which);
bool is_burst_type(uint8_t type);

/* Whether a frame of that code has two burst packets, the top bit being set (000 section 2.1.3). */
bool is_full_burst(uint8_t code);

/* The bits of a type byte above the type. */
enum { BIT_6 = 64, TOP_BIT = 128 };

/* Writes a record of GENERATE_RECORD bytes that passes rules 3 to 6, with that
 * content and any bytes elsewhere. */
void generate_record(struct random *random, const struct content *content, uint8_t *record);

/* Gives a record another count. */
void generate_set_count(uint8_t *record, uint32_t count);

/* The number of forms in which a rule can be broken. */
uint32_t spoil_forms(unsigned rule);

/* Breaks one rule of a record of GENERATE_RECORD bytes, in a room of
 * GENERATE_LONGEST, and no other: it changes only bits that no other rule looks
 * at. (A record of another length, rule 2, is still one to break further.)
 * Answers the record's length from then on. */
size_t spoil_form(struct random *random, uint8_t *record, unsigned rule, uint32_t form);
size_t spoil(struct random *random, uint8_t *record, unsigned rule);

/* Writes 82 MAG bytes: the status byte and 54 numbers of 12 bits, packed as
 * 000 section 2.2 says. */
void generate_mag(uint8_t status, const uint16_t *numbers, uint8_t *mag);

#endif
