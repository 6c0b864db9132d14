/* Range and samples of MAG bytes, as they are compared for every record. */
#ifndef MAG_H
#define MAG_H

#include "drive.h"

/* The range and the samples of MAG bytes, with a room of so many numbers. */
void compare_mag(struct drive *drive, const uint8_t *mag, size_t length, size_t room_numbers);

/* Those of a burst packet of a record. */
void compare_burst(struct drive *drive, const uint8_t *record, size_t length, uint8_t which,
                   size_t room_numbers);

#endif
