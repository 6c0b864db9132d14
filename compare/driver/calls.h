/* How the reader's functions are called and compared. */
#ifndef CALLS_H
#define CALLS_H

#include "differ.h"
#include "reader.h"

/* Calls both and compares all: answers, rooms, what lies around them, the bytes given.
 * With LPMAG_OK the rooms have to be what 01 makes of them, else as found. */
void compare_step(struct drive *drive, struct reader *reader, const struct input *input, uint8_t expected);
void compare_finish(struct drive *drive, struct reader *reader, uint8_t expected);

/* Likewise, with so many bytes of a row from a record on. The rooms and what was fed have
 * to be what comes of steps with these records, one by one, until one is refused or
 * closes something; where rule 1 is broken, the answer 1. Answers the records taken. */
size_t compare_feed(struct drive *drive, struct reader *reader, const struct row *row, size_t from,
                    size_t length);

/* Feeds one record, and nothing else. */
void compare_fed_whole(struct drive *drive, struct reader *reader, const struct input *input, uint8_t answer);

/* Feeds one record with a part of another after it, or only a part of it. */
void compare_feed_of(struct drive *drive, struct reader *reader, const struct input *input, uint8_t answer);

/* That or a step, which it always is for a record of another length: fed once in so many times. */
void compare_taken(struct drive *drive, struct reader *reader, const struct input *input, uint8_t answer,
                   uint32_t fed_once_in);

/* Where rule 1 is broken: feeds no whole record, one or many, which could follow the
 * state. */
void compare_feed_refused(struct drive *drive, struct reader *reader);

/* What the first told, after a call of LPMAG_OK. */
struct lpmag_report reader_report(struct reader *reader);
struct lpmag_fed reader_fed(struct reader *reader);
struct lpmag_closed reader_closed(struct reader *reader);

#endif
