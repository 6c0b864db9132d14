/* The reader as the driver expects it, by the rules of 01 and 02 in their shortest form,
 * and what it calls it with. */
#ifndef READER_H
#define READER_H

#include "drive.h"
#include "lend.h"
#include "records.h"

/* ---- states ----------------------------------------------------------- */

enum { SLOTS = 16 };

/* 02, request 1: a full count is below COUNTS: ROUND times the turn, 0 to 4,095, and the own count. A
 * record is later when it is 1 to AHEAD counts ahead of the last accepted, as far as 24 bits tell. */
#define COUNTS ((uint64_t)1 << 36)
#define AHEAD ((uint64_t)8388607)

/* Marks are the bits of a number. */
unsigned ones(uint64_t marks);
unsigned highest(uint64_t marks); /* of marks that aren't 0 */

/* The fresh state: all is 0. */
extern const struct lpmag_state fresh;

/* The clauses that a state breaks, bit by bit. Three of them are about a count that
 * another one bounds, and are never broken alone. */
uint32_t clauses_broken(const struct lpmag_state *state);

/* The full count that a record of that own count has if it is accepted after this state: the
 * first past the last accepted with these 24 bits, or the own count where there is none. */
uint64_t full_count(const struct lpmag_state *state, uint32_t own);

/* What step has to answer to such a record if all else is right: LPMAG_OK, 12 or 14. */
uint8_t answer_by_count(const struct lpmag_state *state, uint32_t own);

/* Whether anything was closed. */
bool closes(const struct lpmag_closed *closed);

/* ---- what is lent ----------------------------------------------------- */

/* All that is lent to the reader, from call to call. What the rooms are found with
 * is what they have to hold. Their sizes are those that the calls tell. */
struct reader {
    struct lpmag_state state;
    struct rooms rooms[ROOMS]; /* TOLD is made anew for each call */
    struct lpmag_state asked;  /* the state of the last call, as found */
};

/* The rooms have their right sizes, the state as told, dirt in the rest. */
void reader_make(struct random *random, struct reader *reader, const struct lpmag_state *state);

/* Another state, all else as it is. */
void reader_set(struct reader *reader, const struct lpmag_state *state);

/* The size that a room has to be of, and so many bytes or numbers as bytes. */
size_t right_size(enum lent_room room);
size_t bytes_in(enum lent_room room, size_t size);

/* The size of a room; and another room, of so many bytes or numbers and full of dirt. */
size_t reader_size(const struct reader *reader, enum lent_room room);
void reader_resize(struct random *random, struct reader *reader, enum lent_room room, size_t size);

/* What a room is found with. */
uint8_t *reader_found(struct reader *reader, enum lent_room room);

/* Makes what the rooms are found with what 01 makes of it, by an accepted record and by
 * finish; answers what the call has to tell. */
struct lpmag_report expected_report(struct drive *drive, struct reader *reader, const struct input *input);
struct lpmag_closed expected_closed(struct reader *reader);

#endif
