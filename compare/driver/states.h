/* States of the reader made from a seed: ones that keep 01's list, and ones that
 * break a clause of it on purpose. */
#ifndef STATES_H
#define STATES_H

#include "reader.h"

/* A state that keeps the list, something having been accepted. A snapshot is open in half of them. */
struct lpmag_state any_state(struct random *random, bool accumulation, bool major);

/* Likewise, an accumulation and a major frame open or not; and one that a record can follow, being not
 * at the last count of all. */
struct lpmag_state any_good_state(struct random *random);
struct lpmag_state any_state_with_a_next(struct random *random);

/* The number of forms in which a clause can be broken alone; 0 for the three that
 * can't be, since another count bounds theirs. */
uint32_t break_forms(enum clause clause);

/* A state that breaks this clause and keeps all others. */
struct lpmag_state broken_state(struct random *random, enum clause clause, uint32_t form);

/* Sets one of the SPARE_BITS. */
void set_spare_bit(struct lpmag_state *state, unsigned bit);

/* A state with a count at 2^36 or past it, which may break other clauses too: the
 * last accepted; the last real-time with it; the first with both; the last real-time
 * alone; the first alone; the first, so large that the frames make it small; the first of a
 * snapshot, alone and with the last accepted. */
enum { COUNT_FORMS = 8 };
struct lpmag_state broken_counts(struct random *random, uint32_t form);

#endif
