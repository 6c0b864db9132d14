/* What is lent to the functions that are compared: bytes to read, and rooms and
 * numbers to write into, one for each implementation with the same dirt in and
 * around it. */
#ifndef LEND_H
#define LEND_H

#include "base/random.h"

#include <stdbool.h>
#include <stddef.h>
#include <stdint.h>

/* The most bytes that can be lent at a time, to read and as a room. */
#define LEND_BYTES 32768
#define LEND_ROOM 3072

/* A copy of at most LEND_BYTES bytes. Half the time it stands right before a page
 * that can't be read, so that reading past its end ends the program, else at any
 * alignment. For 0 bytes the pointer is null half the time. The copy lasts until
 * the next call. */
const uint8_t *lend_bytes(struct random *random, const uint8_t *bytes, size_t length);

/* Likewise numbers and a struct, each in a place of its own and aligned. */
const int16_t *lend_numbers(struct random *random, const int16_t *numbers, size_t count);
const void *lend_struct(struct random *random, const void *bytes, size_t length);

/* Around every room lie at least so many bytes that nobody may change. It starts at a
 * multiple of 8 bytes, as the structs need, and half the time at none of 16. */
enum { LEND_GUARD = 64, LEND_ALIGNED = 8, LENT = LEND_GUARD + LEND_ALIGNED + LEND_ROOM + LEND_GUARD };

union lent {
    _Alignas(2 * LEND_ALIGNED) uint8_t bytes[LENT];
    int16_t numbers[LENT / 2];
    float fields[LENT / 4];
};

struct rooms {
    const char *name; /* of what is lent, or null where it needs none */
    size_t at;        /* where the room starts among the bytes */
    size_t length;    /* of the room in bytes, without what lies around it */
    bool null;        /* a room of 0 bytes at no address */
    union lent found;
    union lent first;
    union lent second;
};

/* Two rooms of the length given in bytes, at most LEND_ROOM. */
void rooms_make(struct rooms *rooms, struct random *random, size_t length);

/* Puts these bytes at the start of both rooms, as what is found there. */
void rooms_put(struct rooms *rooms, const void *bytes, size_t length);

/* The pointer to lend for rooms->first or rooms->second. */
uint8_t *room_of_bytes(const struct rooms *rooms, union lent *lent);
int16_t *room_of_numbers(const struct rooms *rooms, union lent *lent);
float *room_of_fields(const struct rooms *rooms, union lent *lent);
void *room_of_struct(const struct rooms *rooms, union lent *lent);

/* The bytes in and around the room. */
size_t rooms_whole(const struct rooms *rooms);

/* Null if both rooms have the same content, nothing around them changed and,
 * where `kept`, the rooms themselves didn't; else what went wrong. */
const char *rooms_wrong(const struct rooms *rooms, bool kept);

/* Two numbers lent for a range, with others before, between and after them that
 * nobody may change. */
enum { LOW = 1, HIGH = 3, RANGE_NUMBERS = 5 };

struct ranges {
    uint64_t found[RANGE_NUMBERS];
    uint64_t first[RANGE_NUMBERS];
    uint64_t second[RANGE_NUMBERS];
};

void ranges_make(struct ranges *ranges, struct random *random);

/* What to lend of ranges->first or ranges->second. */
#define RANGE_OF(numbers) &(numbers)[LOW], &(numbers)[HIGH]

/* As rooms_wrong. */
const char *ranges_wrong(const struct ranges *ranges, bool kept);

#endif
