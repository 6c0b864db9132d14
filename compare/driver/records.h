/* The records that the driver hands in, and what they have to be read as, by their content. */
#ifndef RECORDS_H
#define RECORDS_H

#include "base/random.h"
#include "input/generate.h"

#include "lpmag.h"

#include <stdbool.h>
#include <stddef.h>
#include <stdint.h>

/* 02, request 1: a record's own count is below ROUND. */
#define ROUND ((uint64_t)1 << 24)

/* The types of real-time frames are below this; and the marks of all types below a number. */
enum { TYPES = 36 };
#define MARKS_OF(types) (((uint64_t)1 << (types)) - 1)
#define ALL_HELD MARKS_OF(TYPES)

/* The fields of a record, from the content it was made of. */
struct lpmag_fields fields_of(const struct content *content);

/* The kind of a packet by its two type bytes, of which only a full burst has the second. */
uint8_t kind_of(uint8_t code, uint8_t second_code);

struct input {
    struct content content; /* what it was made of */
    uint8_t record[GENERATE_LONGEST];
    size_t length;
};

/* A record that passes rules 2 to 11, of a type or of two type bytes. Its own count is that of the
 * full one given. */
void input_make(struct random *random, struct input *input, uint64_t count, uint8_t type);
void input_make_coded(struct random *random, struct input *input, uint64_t count, uint8_t code,
                      uint8_t second_code);

/* The burst packets of a record that passes, by its content: one of a half burst, two of a full
 * one. */
struct packet {
    uint8_t type;
    bool bit_6;
    const uint8_t *bytes;
};
enum { MOST_PACKETS = 2 };
size_t input_packets(const struct input *input, struct packet *packets);

/* Whether it has MAG of its own: a real-time frame or a half burst. */
bool input_has_mag(const struct input *input);

/* Breaks a rule from 2 to 11. */
void input_spoil(struct random *random, struct input *input, unsigned rule);

/* Records of LPMAG_RECORD bytes one after another, with what a step has to answer to
 * each in its turn, and after them a tail of fewer bytes: what feed is given. */
enum { MOST_IN_ROW = 1600 };
struct row {
    size_t count;
    size_t tail;
    struct input inputs[MOST_IN_ROW];
    uint8_t answers[MOST_IN_ROW];
    uint8_t bytes[LPMAG_RECORD * (MOST_IN_ROW + 1)];
};

void row_clear(struct row *row);
void row_add(struct row *row, const struct input *input, uint8_t answer);

/* Any bytes as the tail, after the last record was added. */
void row_end(struct random *random, struct row *row, size_t tail);

/* The bytes from a record on to the end; and any part of them to feed at once, often of
 * less than a record or about one. */
size_t row_left(const struct row *row, size_t from);
size_t row_part(struct random *random, const struct row *row, size_t from);

/* MAG number k of the MAG bytes (000 section 2.2). */
int16_t mag_number(const uint8_t *mag, size_t k);

#endif
