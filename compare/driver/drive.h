/* The driver of the comparison of include/lpmag.h (the first implementation) with the second: what is
 * compared, and what was met so far. */
#ifndef DRIVE_H
#define DRIVE_H

#include "base/random.h"

#include "lpmag.h"

#include <stdbool.h>
#include <stddef.h>
#include <stdint.h>

/* The functions compared, in the header's order; those that are lent structs, which have names of their
 * own in the second, apart from the others. */
#define FUNCTIONS_COMPARED(PLAIN, LENT)       \
    PLAIN(VERSION, version)                   \
    PLAIN(WORD16, word16)                     \
    PLAIN(WORD24, word24)                     \
    PLAIN(WORD32, word32)                     \
    PLAIN(TWELVE_LEAST, twelve_least)         \
    PLAIN(TWELVE_MOST, twelve_most)           \
    PLAIN(CHECK, check)                       \
    LENT(FIELDS, fields)                      \
    PLAIN(PACKET, packet)                     \
    PLAIN(KIND, kind)                         \
    PLAIN(REFUSAL_WORDS, refusal_words)       \
    PLAIN(RANGE, range)                       \
    PLAIN(SAMPLES, samples)                   \
    PLAIN(FIELD, field)                       \
    PLAIN(BURST_RANGE, burst_range)           \
    PLAIN(BURST_SAMPLES, burst_samples)       \
    PLAIN(LAY_ELECTRONS, lay_electrons)       \
    PLAIN(CELL, cell)                         \
    PLAIN(BIN_SAMPLES, bin_samples)           \
    PLAIN(ELECTRON_SAMPLE, electron_sample)   \
    PLAIN(THREE_D, three_d)                   \
    PLAIN(TOTAL, total)                       \
    PLAIN(RATE, rate)                         \
    PLAIN(COUNT_RANGE, count_range)           \
    PLAIN(COUNT_SUM, count_sum)               \
    PLAIN(ANGLE, angle)                       \
    LENT(STEP, step)                          \
    LENT(FEED, feed)                          \
    LENT(FINISH, finish)                      \
    LENT(MAJOR_WORD, major_word)              \
    LENT(MAJOR_SAMPLE, major_sample)          \
    LENT(MAJOR_FIELD, major_field)            \
    PLAIN(SNAPSHOT_BYTE, snapshot_byte)       \
    PLAIN(SNAPSHOT_THREE_D, snapshot_three_d) \
    PLAIN(SNAPSHOT_PITCH, snapshot_pitch)     \
    PLAIN(SNAPSHOT_TOTAL, snapshot_total)     \
    PLAIN(SNAPSHOT_RATE, snapshot_rate)       \
    PLAIN(SNAPSHOT_ANGLE, snapshot_angle)

#define ENUMERATED(NAME, name) NAME,
enum function { FUNCTIONS_COMPARED(ENUMERATED, ENUMERATED) FUNCTIONS };

const char *function_name(enum function function);

/* The clauses of 01's state list, in its order; before them what the header says
 * of the flags and the spare fields, after them what 02's request 2 adds. */
#define CLAUSES_OF_A_STATE(CLAUSE)                                                       \
    CLAUSE(FLAG_IS_0_OR_1, "the flag is 0 or 1")                                         \
    CLAUSE(CUT_IS_0_OR_1, "the cut mark is 0 or 1")                                      \
    CLAUSE(SPARES_ARE_0, "spare fields are 0")                                           \
    CLAUSE(LAST_ACCEPTED_BELOW, "the last accepted count is below 2^36")                 \
    CLAUSE(FIRST_COUNT_BELOW, "the first count is below 2^36")                           \
    CLAUSE(LAST_COUNT_BELOW, "the last real-time count is below 2^36")                   \
    CLAUSE(FRAMES_AMONG_36, "frames held among 36")                                      \
    CLAUSE(HIGHEST_IS_LAST_TYPE, "the highest being the last type")                      \
    CLAUSE(FIRST_AND_FRAMES, "first count plus frames held minus 1")                     \
    CLAUSE(LAST_AND_OTHERS, "last real-time count plus other frames")                    \
    CLAUSE(MAG_AMONG_SLOTS, "MAG slots among the slots")                                 \
    CLAUSE(MAJOR_NUMBER, "the open major number")                                        \
    CLAUSE(HIGHEST_SLOT, "the highest slot held")                                        \
    CLAUSE(RANGES_TO_7, "ranges are 0 to 7")                                             \
    CLAUSE(RANGES_NOT_HELD, "ranges of MAG slots not held")                              \
    CLAUSE(WORDS_NOT_HELD, "subcom words of slots not held")                             \
    CLAUSE(NO_ACCUMULATION_OPEN, "with no accumulation open, its numbers are 0")         \
    CLAUSE(NO_SLOT_HELD, "with no slot held, the open major number is 0")                \
    CLAUSE(NOTHING_ACCEPTED, "until something is accepted, all is 0")                    \
    CLAUSE(SNAPSHOT_COUNT_BELOW, "the snapshot's first count is below 2^36")             \
    CLAUSE(PACKETS_AMONG_20, "packets held among 20")                                    \
    CLAUSE(HIGHEST_IS_LAST_PACKET, "the highest being the last packet's type")           \
    CLAUSE(SNAPSHOT_BEFORE_LAST, "the snapshot's first count at most the last accepted") \
    CLAUSE(NO_SNAPSHOT_OPEN, "with no snapshot open, its numbers and its cut mark are 0")

enum clause { CLAUSES_OF_A_STATE(ENUMERATED) CLAUSES };

const char *clause_name(enum clause clause);

/* The two edges of the joining rule (01, "Joining accumulations"), on either side:
 * g is u - t - 2, u - t - 1, 34 + (u - t), 35 + (u - t). */
enum edge { ONE_BELOW, LEAST, MOST, ONE_ABOVE, EDGES };

/* The edges of what is later (02, request 1), on either side. A record is ahead of the last
 * accepted, modulo 2^24, by 1; by 8,388,606 to 8,388,609, of which two are later; by 2^24 - 1,
 * being one count late. */
enum jump { NEXT_COUNT, BEFORE_FARTHEST, FARTHEST, PAST_FARTHEST, TWO_PAST, ONE_LATE, JUMPS };

/* What is lent to the reader's functions to write, with its right size and its name: the buffers, whose
 * size can be wrong, the state, and what the call tells (its report, what it was fed or what it
 * closed). Sizes are in bytes, and in numbers of the samples. */
#define ROOMS_LENT(ROOM)                                                                       \
    ROOM(OPEN_CELLS, LPMAG_CELLS, "the open cells", "aren't what they have")                   \
    ROOM(FINISHED_CELLS, LPMAG_CELLS, "the finished cells", "aren't what they have")           \
    ROOM(OPEN_SAMPLES, LPMAG_FRAME, "the open samples", "aren't what they have")               \
    ROOM(FINISHED_SAMPLES, LPMAG_FRAME, "the finished samples", "aren't what they have")       \
    ROOM(OPEN_SNAPSHOT, LPMAG_SNAPSHOT, "the open snapshot", "isn't what it has")              \
    ROOM(FIRST_FINISHED, LPMAG_SNAPSHOT, "the first finished snapshot", "isn't what it has")   \
    ROOM(SECOND_FINISHED, LPMAG_SNAPSHOT, "the second finished snapshot", "isn't what it has") \
    ROOM(STATE, sizeof(struct lpmag_state), "the state", "isn't what it has")                  \
    ROOM(TOLD, 0, "what the call tells", "isn't what it has")

#define ENUMERATED_ROOM(ROOM, size, name, is) ROOM,
enum lent_room { ROOMS_LENT(ENUMERATED_ROOM) ROOMS, SIZED = STATE };

const char *room_name(enum lent_room room);

/* The reader's functions, for counting. */
enum call { BY_STEP, BY_FEED, BY_FINISH, CALLS };

/* The bits of all spare fields of a state: the state's own, then those of the
 * accumulation, of 8, 16 and 32 bits each, then the major frame's 32 and the snapshot's 16. */
enum { SPARES = 8 + 16 + 32, SPARE_BITS = 2 * SPARES + 32 + 16 };

/* The numbers of refusals are below this, and 0 is none; 13 is no refusal's. */
enum { REFUSALS = 15 };

/* The packets of a snapshot, types 36 to 55; and the types of all burst packets. A frame closes two
 * snapshots at most. */
enum { FIRST_PACKET = 36, PACKETS = 20, TYPE_NUMBERS = 64, MOST_CLOSED = 2 };

/* What a packet of a type above the last one held finds, by which it joins or not (02, request 2):
 * a count that wasn't accepted or bit 6 since, and bit 6 of its own. */
enum since { NOTHING_SINCE, CUT_SINCE, OWN_BIT, BOTH_BITS, SINCE };

/* Where two packets come: in one frame, or in two. */
enum together { IN_TWO_FRAMES, IN_ONE_FRAME, TOGETHER };

/* How many whole records there are, for counting what is fed. */
enum given { NO_RECORD, ONE_RECORD, MANY_RECORDS, GIVEN };

struct drive {
    struct random random;
    const char *phase;               /* what is being compared */
    const struct lpmag_state *state; /* that the reader is called with, or null */

    /* What was met, for the end: a comparison that saw nothing proves nothing. */
    uint64_t calls[FUNCTIONS];                /* pairs of calls */
    uint64_t kept_rooms;                      /* rooms that had to stay as found */
    uint64_t kept_ranges;                     /* numbers lent for a range, likewise */
    uint64_t records;                         /* through every function of a record */
    uint64_t refusals[12];                    /* by number; 0 where a record passes */
    uint64_t kinds[LPMAG_FULL_BURST + 1];     /* of whole packets */
    uint64_t second_codes[2][256];            /* of full bursts, by whether rule 11 is kept */
    uint64_t words[REFUSALS];                 /* given, by number of the refusal; 0 for any other */
    uint64_t words_not_given;                 /* the room being too small */
    uint64_t ranges[LPMAG_NO_SUCH_PLACE + 1]; /* answered for samples */

    /* And of the electrons. */
    uint64_t answers[FUNCTIONS][LPMAG_NO_SUCH_BIN + 1]; /* of each function but the angle */
    uint64_t laid[36];                                  /* frames, by type */
    uint64_t accumulations;                             /* laid whole */
    uint64_t cells_given[2988];                         /* raw, by cell */
    uint64_t cells_absent[2988];
    uint64_t samples_plain[15]; /* by bin */
    uint64_t samples_scaled[15];
    uint64_t sums_past[2][2]; /* whether the lows' sum is past 64 bits, and the highs' */
    uint64_t angles[LPMAG_NO_SUCH_BIN + 1];

    /* And of the reader. */
    uint64_t steps[REFUSALS];              /* by answer */
    uint64_t feeds[2];                     /* by answer */
    uint64_t finishes[2];                  /* by answer */
    uint64_t fresh[CALLS];                 /* calls of answer 0 with the fresh state */
    uint64_t fates[LPMAG_NEITHER + 1];     /* of accepted frames */
    uint64_t others_counted[2];            /* other frames with no accumulation open, and with one */
    uint64_t edges[EDGES][36][36];         /* frames at the edges, by last type and type above it */
    uint64_t not_above[36][36];            /* frames of a type not above the last, likewise */
    uint64_t past_others[LPMAG_JOINS + 1]; /* frames after other frames, by what became of them */
    uint64_t taken[36][16];                /* real-time frames, by type and slot */
    uint64_t jumps[JUMPS][2];              /* good records, by whether the count is below the last */
    uint64_t turned[CALLS];                /* calls that begin a turn */
    uint64_t late_past_turns;              /* good records that break 14 too and are refused with 12 */
    uint64_t broken[CALLS][CLAUSES];       /* states that break one clause alone */
    uint64_t passing;                      /* states made at random that break none */
    uint64_t wrong_sizes[CALLS][SIZED];    /* alone */
    uint64_t flags[CALLS][2][256];         /* flag bytes, in the fresh state or another */
    uint64_t cuts[CALLS][2][256];          /* cut marks, with no snapshot open or with one */
    uint64_t spares[CALLS][SPARE_BITS];    /* bits of spare fields, alone in a good state */
    uint64_t structs[CALLS];               /* told, with all fields known and different */

    /* By calls of answer 0: whether a major frame is closed, an accumulation, and how many snapshots. */
    uint64_t closed[CALLS][2][2][MOST_CLOSED + 1];

    /* And of bursts: frames taken, half and full, by type; packets of 36 to 55 by that of the last one
     * held; packets of 56, 57 and 62 by type, with a snapshot open or not, with bit 6 or not. */
    uint64_t bursts[2][TYPE_NUMBERS];
    uint64_t above[TOGETHER][SINCE][PACKETS][PACKETS];
    uint64_t packets_not_above[TOGETHER][PACKETS][PACKETS];
    uint64_t fill_bits[TYPE_NUMBERS][2][2];
    uint64_t packets_alone;                            /* of 36 to 55, with no snapshot open */
    uint64_t missing_with_open;                        /* records after a missing count, one being open */
    uint64_t bytes_given[LPMAG_SNAPSHOT];              /* by place in a snapshot */
    uint64_t bytes_absent[LPMAG_SNAPSHOT];             /* likewise */
    uint64_t burst_ranges[LPMAG_NO_SUCH_PLACE + 1][2]; /* answered for samples, by packet */

    /* And of what is fed. */
    uint64_t fed[REFUSALS];            /* feeds of answer 0 that took a record, by what it was answered */
    uint64_t fed_taken[GIVEN];         /* feeds of answer 0, by the records taken */
    uint64_t fed_left[2][GIVEN];       /* by whether a part of a record is left, and by the records left */
    uint64_t fed_broken[2][GIVEN];     /* refused for a size or for the state, by the records given */
    uint64_t fed_lengths[3 * 472 + 2]; /* given, up to three records and a byte */

    /* And of streams sent in order. */
    uint64_t sent_turned;          /* streams kept in more than one turn */
    uint64_t sent_late;            /* streams of which the first turn was lost */
    uint64_t sent_to_the_end;      /* streams that end in the last turn */
    uint64_t sent_kept;            /* records, real-time or other */
    uint64_t sent_real_time;       /* the real-time ones of them */
    uint64_t sent_farthest;        /* of those kept: with as many lost before as can be */
    uint64_t accumulations_whole;  /* handed out with all 36 frames */
    uint64_t accumulations_part;   /* with fewer */
    uint64_t accumulations_torn;   /* that were sent and handed out in more than one */
    uint64_t accumulations_across; /* handed out with frames of two turns */
    uint64_t sent_with_mag;        /* records kept that have MAG, half bursts among them */
    uint64_t sent_packets;         /* packets of 36 to 55 in records kept */
    uint64_t snapshots_whole;      /* handed out with all 20 packets */
    uint64_t snapshots_part;       /* with fewer */
    uint64_t snapshots_across;     /* with packets of two turns */
    uint64_t snapshots_of_a_frame; /* that have the first count of another */
    uint64_t majors_whole;         /* handed out with all 16 slots */
    uint64_t majors_part;          /* with fewer */
};

/* Names what is compared next, in the output too: should an implementation break
 * off the program, the last line tells where. */
void begin(struct drive *drive, const char *phase);

#endif
