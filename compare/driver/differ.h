/* How two answers are compared, and the report of a difference. */
#ifndef DIFFER_H
#define DIFFER_H

#include "drive.h"
#include "lend.h"

/* One question to both implementations. */
#define QUESTION_ALSO 7
struct question {
    enum function function;
    const uint8_t *bytes; /* the record, packet, MAG bytes, science, cells or any bytes */
    size_t length;
    struct {
        const char *name;
        uint64_t number;
    } also[QUESTION_ALSO]; /* further arguments, up to the first without a name */
};

/* Counts a pair of answers; where they differ, reports it and ends the program. */
void same_answer(struct drive *drive, const struct question *question, uint64_t first, uint64_t second);

/* Compares what was lent for it, which has to be as found if `kept`. */
void same_rooms(struct drive *drive, const struct question *question, const struct rooms *rooms, bool kept);
void same_ranges(struct drive *drive, const struct question *question, const struct ranges *ranges,
                 bool kept);

/* What both agree on is held against what the papers, or the way the input was
 * made, tell of it: an error that both make shows there. */
void expect_answer(struct drive *drive, const struct question *question, uint64_t answer, uint64_t expected);
void expect_range(struct drive *drive, const struct question *question, const struct ranges *ranges,
                  uint64_t low, uint64_t high);
void expect_bytes(struct drive *drive, const struct question *question, const char *what, const void *found,
                  const void *expected, size_t length);

/* All of it for a question that answers LPMAG_OK or gives no value, whose answers are counted. */
void compare_answers(struct drive *drive, const struct question *question, const struct rooms *rooms,
                     uint8_t first, uint8_t second, uint8_t expected);

#endif
