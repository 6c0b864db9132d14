/* A table of 000 as it is printed, a line for each type of frame or packet, which says where its
 * bytes go in a whole that many of them make up; what reading it gives, and the questions about such
 * a whole. */
#ifndef SECOND_PRINTED_H
#define SECOND_PRINTED_H

#include <stdbool.h>
#include <stddef.h>
#include <stdint.h>

/* The byte of a frame or packet that a place of the whole comes from. */
struct second_carriage {
    bool carried;
    uint8_t type;
    uint8_t byte;
};

/* A line while it is read. */
struct second_line {
    const char *text; /* the rest of it */
    uint8_t type;
    size_t bytes; /* of the frame or packet told by what was read */
};

struct second_table {
    const char *const *lines;
    uint8_t first_type;
    uint8_t types;
    size_t bytes;                     /* that a line has to tell */
    size_t places;                    /* that the lines have to tell, each once */
    size_t length;                    /* of the whole, with what no line tells */
    struct second_carriage *carriage; /* by place */
    bool (*read_item)(struct second_table *table, struct second_line *line);
    bool read; /* so far: once */
    bool whole;
};

/* ---- for reading an item ---------------------------------------------- */

/* Passes over the word if it stands next in the line. */
bool second_pass(struct second_line *line, const char *word);

/* The number that stands next, and passes over it; SECOND_NO_NUMBER if none does. */
#define SECOND_NO_NUMBER SIZE_MAX
size_t second_read_number(struct second_line *line);

/* The next bytes of the frame or packet go to so many places from the first on, which nothing else
 * may claim; false where that can't be, or the first is SECOND_NOWHERE. */
#define SECOND_NOWHERE SIZE_MAX
bool second_carry(struct second_table *table, struct second_line *line, size_t first, size_t count);

/* Reads "a-b", or "a" alone, which is "a-a": bytes of a part that has so many from a place on, to
 * which the next bytes go. */
bool second_carry_bytes(struct second_table *table, struct second_line *line, size_t part, size_t count);

/* ---- what reading gives ----------------------------------------------- */

/* True when each line tells as many bytes as it has to, and all together each place once. Nothing
 * below means anything otherwise. */
bool second_table_whole(struct second_table *table);

/* Lays the bytes of a type where they go. */
void second_lay(struct second_table *table, uint8_t type, const uint8_t *bytes, uint8_t *whole);

/* The byte at a place, and the counts of one that were divided before they were compressed: SECOND_OK,
 * SECOND_NO_SUCH_PLACE or SECOND_ABSENT. `held` has the bit of weight 2^i for the i-th type. */
uint8_t second_byte_at(struct second_table *table, const uint8_t *whole, size_t length, uint64_t held,
                       size_t place, uint8_t *byte);
uint8_t second_counts_at(struct second_table *table, const uint8_t *whole, size_t length, uint64_t held,
                         size_t place, uint8_t divided_by, uint64_t *low, uint64_t *high);

#endif
