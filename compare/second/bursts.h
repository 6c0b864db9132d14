/* The second reader's burst packets as they lie in a frame, and a second of MAG in one. Functions,
 * papers and slices as in lent.h. */
#ifndef SECOND_BURSTS_H
#define SECOND_BURSTS_H

#include "lent.h"

#include <stdbool.h>

/* Bytes of a burst packet (000 section 2.4), and where a half burst's stands in the frame, and a full
 * burst's second (000 sections 2.1.2, 2.1.3). */
#define SECOND_BURST 82
#define SECOND_BURST_AT 86

/* A burst packet: the type and bit 6 of its type byte, and its SECOND_BURST bytes, which are the
 * frame's own. */
struct second_burst {
    uint8_t type;
    bool bit_6;
    const uint8_t *bytes;
};

/* "Either one or two burst packets can be transmitted per frame" (000 section 2.4). */
enum { SECOND_BURSTS = 2 };

/* Those of a packet of SECOND_PACKET bytes, in their order; answers how many there are. */
size_t second_bursts_of(const uint8_t *packet, struct second_burst *bursts);

/* The range 0 to 7 of burst packet `which`, 0 or 1, if it is a second of MAG; else
 * SECOND_NO_SUCH_PLACE, and then what was lent stays as found. */
uint8_t second_burst_range(const uint8_t *record, size_t length, uint8_t which);
uint8_t second_burst_samples(const uint8_t *record, size_t length, uint8_t which, int16_t *room,
                             size_t room_length);

#endif
