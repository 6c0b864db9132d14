/* Streams of anything: where they start, how their counts go on and which frames come. */
#ifndef STREAMS_H
#define STREAMS_H

#include "reader.h"

/* A first count, below 2^24 and often so near to it that the stream goes on into the next
 * turn. */
uint64_t stream_first(struct random *random);

/* How far the next count is ahead: mostly by one, often near what tears an
 * accumulation, and now and then as far as a record can be later. */
uint64_t stream_ahead(struct random *random);

/* After a last accepted count, that of a record which isn't later: the same, one before it as
 * it comes of a delay, or any up to the farthest. */
uint64_t stream_late(struct random *random, uint64_t last);

/* Whether a record can be later than a last accepted count and in a turn past 4,095; and the
 * count of any such one. */
bool stream_can_pass(uint64_t last);
uint64_t stream_past(struct random *random, uint64_t last);

/* What a stream goes on from: the last real-time type, and the type of the last burst packet of a
 * snapshot; 0 where there is none. */
struct lasts {
    uint8_t type;
    uint8_t packet;
};
struct lasts lasts_of(const struct lpmag_state *state);

/* A record: mostly of a type above the last real-time one, often a burst that goes on with the
 * packets of a snapshot. The second takes its types into the lasts. */
void stream_input(struct random *random, struct input *input, uint64_t count, struct lasts lasts);
void lasts_take(struct lasts *lasts, const struct input *input);

/* The type bytes of a burst that mostly goes on after a packet of that type, one packet or two. */
void stream_burst(struct random *random, uint8_t packet, uint8_t *code, uint8_t *second_code);

/* Any type. */
uint8_t any_type(struct random *random);

#endif
