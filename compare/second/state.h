/* The second reader's state: a mark for each frame, slot and burst packet, from and to the structs
 * that are lent, and what rule 1 asks of it. */
#ifndef SECOND_STATE_H
#define SECOND_STATE_H

#include "lent.h"

#include <stdbool.h>

/* The struct has 64 marks for frames, of which 36 can be one, and 32 for burst packets, of which 20
 * can. */
enum { SECOND_FRAME_MARKS = 64, SECOND_SLOTS = 16, SECOND_PACKET_MARKS = 32 };

/* The clock goes round (02, request 1): a record's own count has 24 bits, and turns are 0 to
 * 4,095. Where nothing else is said a count is the full one, turn x 2^24 + own count. */
enum { SECOND_COUNTS_OF_A_TURN = 16777216, SECOND_LAST_TURN = 4095 };

/* The accumulation that is open if it holds a frame. */
struct accumulation {
    uint64_t first_count;
    bool held[SECOND_FRAME_MARKS]; /* by type */
    uint8_t last_type;
    uint64_t last_count; /* of its last frame, the last real-time one */
    uint64_t others;     /* accepted since */
};

/* Numbers: the samples of a major frame, 16 slots of SECOND_SAMPLES; 01, "Joining accumulations". */
#define SECOND_FRAME 864

/* The major frame that is open if it holds a slot. */
struct major_frame {
    uint64_t number;
    bool held[SECOND_SLOTS];
    bool mag[SECOND_SLOTS]; /* held with MAG */
    uint8_t ranges[SECOND_SLOTS];
    uint16_t words[SECOND_SLOTS];
};

/* The snapshot that is open if it holds a packet. */
struct snapshot {
    uint64_t first_count;
    bool held[SECOND_PACKET_MARKS]; /* by type less 36 */
    uint8_t last_type;
    bool cut; /* since its last packet: a count wasn't accepted, or bit 6 was set in a type byte */
};

struct state {
    bool accepted;      /* something was */
    uint64_t turn;      /* of the last accepted record, */
    uint32_t own_count; /* and its own count */
    struct accumulation accumulation;
    struct major_frame major;
    struct snapshot snapshot;
};

uint64_t second_full_count(uint64_t turn, uint32_t own_count);

/* The full count of the last accepted record. */
uint64_t second_last_accepted(const struct state *state);

/* How many marks are set; and how many frames, slots or packets one of the three holds. */
size_t second_marks_set(const bool *marks, size_t count);
#define SECOND_HELD(open) second_marks_set((open)->held, sizeof(open)->held)

/* The number that has the bit of weight 2^i for mark i; and that of what one of the three holds. */
uint64_t second_marks_number(const bool *marks, size_t count);
#define SECOND_HELD_NUMBER(open) second_marks_number((open)->held, sizeof(open)->held)

/* Reads what was lent as a state; false when it is none, or breaks the list. */
bool second_read_state(const struct second_state *lent, struct state *state);
struct second_state second_lent_state(const struct state *state);

/* A major frame, in which anything may stand. */
struct major_frame second_read_major(const struct second_major *lent);
struct second_major second_lent_major(const struct major_frame *major);

#endif
