/* Lunar Prospector MAG/ER: the second reader, written from the papers alone so that the first can be
 * compared with it. What its functions are lent, and the numbers of their answers: as the header of
 * the library prints them, written here once more, since nothing of the library is included.
 *
 * Papers: "01" is the rules for what is built, "02" the requests after it, "000" the instrument's
 * telemetry format, "002" the archive label; "the header" is the library's. The functions are those
 * of the header, under the prefix second_: each has the parameters, and gives the answers, that are
 * told there.
 *
 * A slice is a pointer and then a number of elements; the pointer may be null only with 0 elements.
 * Lent rooms overlap no other argument. */
#ifndef SECOND_LENT_H
#define SECOND_LENT_H

#include <stddef.h>
#include <stdint.h>

/* ---- answers ---------------------------------------------------------- */

/* Those of a refusal, 1 to 14, are 01's and 02's. */
enum {
    SECOND_OK = 0,
    SECOND_NO_SUCH_PLACE = 128,
    SECOND_ABSENT = 129,
    SECOND_SCALE_UNKNOWN = 130,
    SECOND_TOO_LARGE = 131,
    SECOND_NO_SUCH_BIN = 132
};

/* What became of a frame: it opened an accumulation, joined the open one, or is no real-time one. */
enum { SECOND_OPENS, SECOND_JOINS, SECOND_NEITHER };

/* Kinds of a frame past the types 0 to 35 of real-time ones. */
enum { SECOND_OTHER = 64, SECOND_UNDEFINED, SECOND_HALF_BURST, SECOND_FULL_BURST };

/* ---- structs ---------------------------------------------------------- */

/* Spare fields stand where there would be padding, and are 0 in all that is handed out. Counts are
 * full ones but for that of the fields, and marks the bits of a number: of weight 2^u for type u or
 * slot u, of weight 2^(t - 36) for a burst packet of type t. */

struct second_major {
    uint64_t number;
    uint16_t words[16];
    uint8_t ranges[16];
    uint16_t slots;
    uint16_t mag_slots;
    uint32_t spare32;
};

struct second_accumulation {
    uint64_t first;
    uint64_t held;
    uint64_t last_count;
    uint64_t others;
    uint8_t last_type;
    uint8_t spare8;
    uint16_t spare16;
    uint32_t spare32;
};

struct second_snapshot {
    uint64_t first;
    uint32_t held;
    uint8_t last_type;
    uint8_t cut;
    uint16_t spare16;
};

struct second_state {
    uint64_t last;
    uint8_t any;
    uint8_t spare8;
    uint16_t spare16;
    uint32_t spare32;
    struct second_accumulation accumulation;
    struct second_major major;
    struct second_snapshot snapshot;
};

struct second_fields {
    uint32_t count; /* the record's own */
    uint32_t millisecond;
    uint32_t level;
    uint32_t quality;
    uint16_t day;
    uint16_t subcom;
    uint8_t first_flag;
    uint8_t second_flag;
    uint8_t third_flag;
    uint8_t frame_code;
    uint8_t frame_type;
    uint8_t kind;
    uint8_t level_finite;
    uint8_t quality_finite;
    uint8_t second_code;
    uint8_t spare8;
    uint16_t spare16;
};

struct second_closed_snapshot {
    uint64_t first;
    uint32_t held;
    uint8_t closed;
    uint8_t spare8;
    uint16_t spare16;
};

struct second_closed {
    struct second_major major;
    uint64_t accumulation_first;
    uint64_t accumulation_held;
    uint8_t major_closed;
    uint8_t accumulation_closed;
    uint16_t spare16;
    uint32_t spare32;
    struct second_closed_snapshot first_snapshot;
    struct second_closed_snapshot second_snapshot;
};

struct second_report {
    struct second_fields fields;
    uint8_t gap; /* what became of the frame */
    uint8_t spare8;
    uint16_t spare16;
    uint32_t spare32;
    struct second_closed closed;
};

struct second_fed {
    uint64_t taken;
    uint8_t answer;
    uint8_t spare8;
    uint16_t spare16;
    uint32_t spare32;
    struct second_closed closed;
};

/* ---- the reader's buffers --------------------------------------------- */

/* The seven that step, feed and finish are lent, each with how much it holds. */
#define SECOND_BUFFERS                                                                                    \
    uint8_t *open_cells, size_t open_cells_length, uint8_t *finished_cells, size_t finished_cells_length, \
        int16_t *open_samples, size_t open_samples_length, int16_t *finished_samples,                     \
        size_t finished_samples_length, uint8_t *open_snapshot, size_t open_snapshot_length,              \
        uint8_t *first_snapshot, size_t first_snapshot_length, uint8_t *second_snapshot,                  \
        size_t second_snapshot_length

#endif
