/* The second reader's snapshot: half a spin of electrons from 20 burst packets, and the questions
 * about it. Functions, papers and slices as in lent.h. */
#ifndef SECOND_SNAPSHOT_H
#define SECOND_SNAPSHOT_H

#include "lent.h"

#include <stdbool.h>

/* Bytes: header 4, 3D 1,320, pitch angle 240, angles 4, table 72; 02, request 2. */
#define SECOND_SNAPSHOT 1640

/* The ER's packets (000 section 2.4): "fills 20 packets (Frame Types 36-55)". */
enum { SECOND_FIRST_PACKET = 36, SECOND_PACKETS = 20 };

/* True when the table of 000 section 2.4.1, as it is written here, gives 82 bytes to each packet
 * and each of the 1,640 once. Nothing below means anything otherwise. */
bool second_snapshot_whole(void);

/* Whether a burst packet of that type is one of a snapshot's; and lays its SECOND_BURST bytes into
 * one. */
bool second_in_snapshot(uint8_t type);
void second_lay_burst(uint8_t type, const uint8_t *bytes, uint8_t *snapshot);

/* The questions: SECOND_OK, SECOND_NO_SUCH_PLACE or SECOND_ABSENT; unless SECOND_OK, the numbers lent
 * stay as found. `held` has the bit of weight 2^(t - 36) for a held packet of type t. */
uint8_t second_snapshot_byte(const uint8_t *snapshot, size_t length, uint32_t held, size_t place,
                             uint8_t *byte);
uint8_t second_snapshot_three_d(const uint8_t *snapshot, size_t length, uint32_t held, size_t step,
                                size_t angle, uint64_t *low, uint64_t *high);
uint8_t second_snapshot_pitch(const uint8_t *snapshot, size_t length, uint32_t held, size_t energy,
                              size_t angle, uint64_t *low, uint64_t *high);
uint8_t second_snapshot_total(const uint8_t *snapshot, size_t length, uint32_t held, uint64_t *low,
                              uint64_t *high);
uint8_t second_snapshot_rate(const uint8_t *snapshot, size_t length, uint32_t held, uint64_t *low,
                             uint64_t *high);
uint8_t second_snapshot_angle(const uint8_t *snapshot, size_t length, uint32_t held, size_t number,
                              uint8_t *angle);

#endif
