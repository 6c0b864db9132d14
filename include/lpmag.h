/* Lunar Prospector MAG/ER: the exact layer of the library that `./liblpmag`
 * writes (target/staticlib/liblpmag.a, x86-64 Linux). Each function is proved to
 * do what is said here. lpmag_reader.h is a short layer for everyday use over it;
 * examples/field.c and examples/walk.c are whole programs.
 *
 * C11 or C++11, or later.
 *
 * Papers: "01" is the rules for what is built, "02" the changes to them, "000" the
 * instrument's telemetry format, "002" the archive label. All ranges "a to b" are
 * inclusive.
 *
 * What the caller keeps to
 *   - A slice is a pointer and then a number of elements. Its pointer may be null
 *     only with 0 elements. A pointer to a struct or to a single number is never null.
 *   - Each pointer is aligned for its type, and what it points to is there, so many
 *     elements of it, and initialised: a struct, a room or a number that is lent for an
 *     answer has some content when it is lent (0 will do).
 *   - Nothing that is lent to be written to overlaps another argument.
 *
 * What each function keeps to
 *   - It answers for every input: any bytes, numbers, sizes, and any content of a
 *     struct.
 *   - It reads and writes only what it was lent, keeps no pointer, and has no other
 *     state: calls from several threads need no lock where nothing that one of them
 *     is lent to write is lent to another at the same time.
 *   - On an answer that refuses or gives no value, all that was lent stays as found. (Of
 *     a float that is lent as a NaN, that its bits stay is tested; what is proved is that
 *     it stays a NaN.)
 *
 * Answers. A function whose answer is the value itself (a number in bytes, a range, an
 * angle, a kind, how many there are, the version) is marked "the value". Any other answers
 * LPMAG_OK, a refusal's number, 1 to 12 or 14, or a number from 128 on that says why there
 * is no value. In an answer of type uint8_t a number from 128 on is never a value and never a
 * refusal's.
 *
 * Refusals: the number of the first rule of this list that fails (01, "Numbers a
 * refused record gets"; 02, requests 1 and 2; lpmag_refusal_words has the words).
 *    1  a lent buffer isn't of its size, or the state isn't one: a flag byte other than 0
 *       and 1, a spare field other than 0, or numbers that break 01's and 02's list for the
 *       state. Every state that step, feed and finish hand out passes; so do some others
 *    2  the record isn't of 472 bytes
 *    3  it doesn't begin with the sync 1A CF FC 1D
 *    4  the packet version or the spacecraft is another
 *    5  the telemetry rate is another
 *    6  byte 9 isn't 0
 *    7  the day isn't 1 to 366
 *    8  the millisecond is above 86,399,999
 *    9  a spare bit of the status word is set
 *   10  one of the three status flags is 00 or 11, neither 01 nor 10
 *   11  the frame's type is one of 58 to 61, which are not defined, or it is a full burst whose
 *       second type is none of 36 to 57 and 62
 *   12  something was accepted before, and the record isn't later
 *   14  the record's turn would be past 4,095
 * No answer has 13.
 *
 * Counts. A record has a count of 24 bits, which restarts at 0 after 16,777,215. The reader
 * counts the turns, 0 to 4,095, from the first record it accepts, and the counts of a
 * state and of what closed are full ones: turn x 2^24 + the record's own count, below 2^36.
 * A record is later when (its own count - that of the last accepted) modulo 2^24 is 1 to
 * 8,388,607; where its own count is then the lower one, it begins a turn. So after
 * 16,777,215 a record of count 0 begins a turn, and one of count 16,777,210, which was
 * delayed, is refused with 12.
 *
 * The archive needs two functions of its surroundings, memset and memcpy, which every
 * C library has.
 */
#ifndef LPMAG_H
#define LPMAG_H

#include <stddef.h>
#include <stdint.h>

#ifdef __cplusplus
extern "C" {
#endif

/* 100 times the first number of the version, and the second: 2.0. It is the header's;
 * the library's is what lpmag_version answers (the value). */
#define LPMAG_VERSION 200
uint32_t lpmag_version(void);

/* Sizes of slices. */
#define LPMAG_RECORD 472   /* bytes: one record of the merged file */
#define LPMAG_PACKET 168   /* bytes: the MAG/ER packet in it, */
#define LPMAG_PACKET_AT 286 /* and where it stands in the record */
#define LPMAG_MAG 82       /* bytes: the MAG bytes of a packet, */
#define LPMAG_MAG_AT 3     /* and where they stand in the packet */
#define LPMAG_SAMPLES 54   /* numbers: 18 vectors of x, y, z */
#define LPMAG_SCIENCE 83   /* bytes: the ER bytes of a packet, */
#define LPMAG_SCIENCE_AT 85 /* and where they stand in the packet */
#define LPMAG_SECOND_AT 86 /* where a half burst's packet and a full burst's second stand */
#define LPMAG_CELLS 2997   /* bytes: an accumulation, 2,988 cells and 9 bytes of bit pairs */
#define LPMAG_FRAME 864    /* numbers: the samples of a major frame, 16 slots of 54 */
#define LPMAG_SNAPSHOT 1640 /* bytes: a burst snapshot, 20 packets of 82 */
#define LPMAG_BURST 82     /* bytes: one burst packet */
#define LPMAG_WORDS 80     /* bytes: room for the words of any refusal */

/* How many there are of what is asked for by number, from 0 on. */
#define LPMAG_SLOTS 16        /* slots of a major frame */
#define LPMAG_BINS 15         /* energy bins of the pitch-angle samples */
#define LPMAG_PITCH_ANGLES 16 /* angles of such a sample */
#define LPMAG_STEPS 15        /* energy steps of 3D */
#define LPMAG_ANGLES 88       /* angles of such a step */
#define LPMAG_ENERGIES 15     /* energies of a snapshot's pitch angle data */
#define LPMAG_MAG_ANGLES 4    /* bytes of a snapshot's two magnetic samples */

/* Answers. */
#define LPMAG_OK 0              /* accepted; passes; the value is given */
#define LPMAG_NO_SUCH_PLACE 128 /* nothing stands where it was asked for */
#define LPMAG_ABSENT 129        /* the frame or burst packet that carries it isn't held */
#define LPMAG_SCALE_UNKNOWN 130 /* the frame that says its scale isn't held */
#define LPMAG_TOO_LARGE 131     /* a sum past 64 bits */
#define LPMAG_NO_SUCH_BIN 132   /* no such anode, spin phase or energy bin */

/* What became of a frame (01, "Joining accumulations"): `gap` of a report. */
#define LPMAG_OPENS 0   /* a real-time frame that opened an accumulation */
#define LPMAG_JOINS 1   /* a real-time frame that joined the open one */
#define LPMAG_NEITHER 2 /* any other frame */

/* Kinds of a frame (000, section 2.1): 0 to 35 for a real-time frame of that type, or */
#define LPMAG_OTHER 64      /* type 63, a memory dump: nothing of it is kept but its subcom word */
#define LPMAG_UNDEFINED 65  /* what rule 11 refuses: types 58 to 61, a full burst with a second type
                               that is none */
#define LPMAG_HALF_BURST 66 /* types 36 to 57 and 62, top bit of the frame code clear: MAG, and one
                               burst packet at LPMAG_SECOND_AT */
#define LPMAG_FULL_BURST 67 /* the same types, top bit set: no MAG, packet one at LPMAG_MAG_AT, the
                               type byte of packet two at LPMAG_SCIENCE_AT, packet two at
                               LPMAG_SECOND_AT */

/* ---- structs ---------------------------------------------------------- */

/* They have no padding: what would be padding is a spare field, 0 in all that is
 * handed out. Level and quality are the 32 bits of IEEE singles, since a record may
 * have bits that are no number. */

/* A major frame but for its samples. */
struct lpmag_major {
    uint64_t number;    /* the full count divided by 16 */
    uint16_t words[16]; /* the subcom word of each slot; 0 where the slot isn't held */
    uint8_t ranges[16]; /* the range 0 to 7 of each slot; 0 where it has no MAG */
    uint16_t slots;     /* the slots held, bit s of weight 2^s for slot s */
    uint16_t mag_slots; /* the slots held with MAG, likewise */
    uint32_t spare32;   /* 0 */
};

/* An open accumulation. It is open when it holds a frame; else all is 0. */
struct lpmag_accumulation {
    uint64_t first;      /* the count of its first frame */
    uint64_t held;       /* the frames held, bit u of weight 2^u for type u */
    uint64_t last_count; /* the count of its last frame */
    uint64_t others;     /* the frames accepted since its last one that aren't real-time */
    uint8_t last_type;   /* the type of its last frame */
    uint8_t spare8;      /* 0 */
    uint16_t spare16;    /* 0 */
    uint32_t spare32;    /* 0 */
};

/* An open snapshot of a burst. It is open when it holds a packet; else all is 0. */
struct lpmag_snapshot {
    uint64_t first;    /* the count of the frame that brought its first packet */
    uint32_t held;     /* the packets held, bit t - 36 of weight 2^(t - 36) for type t, 36 to 55 */
    uint8_t last_type; /* the type of its last packet */
    uint8_t cut;       /* 1 when, since its last packet, a count wasn't accepted or a burst
                          packet's type byte had bit 6: then nothing joins it; else 0 */
    uint16_t spare16;  /* 0 */
};

/* The reader's state. All 0 is the fresh one; equal states are equal bytes. It is made
 * to be handed from call to call: its bytes are this machine's, and nothing marks them
 * as a state, so don't store it in a file. */
struct lpmag_state {
    uint64_t last;    /* the full count of the last accepted record: turn x 2^24 + its own */
    uint8_t any;      /* 1 when a record was accepted, else 0 */
    uint8_t spare8;   /* 0 */
    uint16_t spare16; /* 0 */
    uint32_t spare32; /* 0 */
    struct lpmag_accumulation accumulation; /* the open accumulation */
    struct lpmag_major major; /* the open major frame: open when it holds a slot */
    struct lpmag_snapshot snapshot; /* the open snapshot */
};

/* The fields of a record that passes rules 2 to 11. (In C++ too write `struct
 * lpmag_fields`: a function has the name as well.) */
struct lpmag_fields {
    uint32_t count;         /* the record's own count, 24 bits */
    uint32_t millisecond;   /* of the day */
    uint32_t level;         /* the signal level's 32 bits */
    uint32_t quality;       /* the signal quality's 32 bits */
    uint16_t day;           /* of the year */
    uint16_t subcom;        /* the subcom word */
    uint8_t first_flag;     /* the three status flags, 1 or 2 each */
    uint8_t second_flag;
    uint8_t third_flag;
    uint8_t frame_code;     /* the type byte */
    uint8_t frame_type;     /* its low six bits */
    uint8_t kind;           /* 0 to 35, LPMAG_HALF_BURST, LPMAG_FULL_BURST or LPMAG_OTHER */
    uint8_t level_finite;   /* 1 when the level is a finite number, else 0 */
    uint8_t quality_finite; /* 1 when the quality is */
    uint8_t second_code;    /* of a full burst the type byte of its second packet; else 0 */
    uint8_t spare8;         /* 0 */
    uint16_t spare16;       /* 0 */
};

/* A snapshot that a call closed. */
struct lpmag_closed_snapshot {
    uint64_t first;   /* the count of the frame that brought its first packet */
    uint32_t held;    /* the packets it holds, bit t - 36 for type t */
    uint8_t closed;   /* 1 when it was closed, else 0 */
    uint8_t spare8;   /* 0 */
    uint16_t spare16; /* 0 */
};

/* What a call closed. What wasn't closed is all 0. */
struct lpmag_closed {
    struct lpmag_major major;    /* the major frame; its samples are in the finished samples */
    uint64_t accumulation_first; /* of the accumulation: the count of its first frame, */
    uint64_t accumulation_held;  /* and the frames it holds; its cells are in the finished cells */
    uint8_t major_closed;        /* 1 when a major frame was closed, else 0 */
    uint8_t accumulation_closed; /* 1 when an accumulation was closed, else 0 */
    uint16_t spare16;            /* 0 */
    uint32_t spare32;            /* 0 */
    struct lpmag_closed_snapshot first_snapshot;  /* the snapshot that closed first; its bytes
                                                     are in the first finished snapshot */
    struct lpmag_closed_snapshot second_snapshot; /* the second, likewise: closed only where the
                                                     first is */
};

/* Of an accepted record. */
struct lpmag_report {
    struct lpmag_fields fields;
    uint8_t gap;      /* what became of the frame: LPMAG_OPENS, LPMAG_JOINS or LPMAG_NEITHER */
    uint8_t spare8;   /* 0 */
    uint16_t spare16; /* 0 */
    uint32_t spare32; /* 0 */
    struct lpmag_closed closed;
};

/* Of many records. */
struct lpmag_fed {
    uint64_t taken;   /* bytes taken, a multiple of LPMAG_RECORD */
    uint8_t answer;   /* of the last record taken: LPMAG_OK, or the number that refused it */
    uint8_t spare8;   /* 0 */
    uint16_t spare16; /* 0 */
    uint32_t spare32; /* 0 */
    struct lpmag_closed closed; /* what the last record taken closed */
};

/* ---- numbers in bytes: the value -------------------------------------- */

/* The number of 2, 3 or 4 bytes from place `at`, most significant byte first;
 * 0 unless it lies wholly in the bytes. */
uint16_t lpmag_word16(const uint8_t *bytes, size_t length, size_t at);
uint32_t lpmag_word24(const uint8_t *bytes, size_t length, size_t at);
uint32_t lpmag_word32(const uint8_t *bytes, size_t length, size_t at);

/* The 12-bit number at place k (bits 12k to 12k + 11); 0 unless it lies wholly
 * in the bytes. Least significant bit first, as 000 section 2.2 packs the MAG
 * samples, or most significant bit first. */
uint16_t lpmag_twelve_least(const uint8_t *bytes, size_t length, size_t k);
uint16_t lpmag_twelve_most(const uint8_t *bytes, size_t length, size_t k);

/* ---- the record ------------------------------------------------------- */

/* LPMAG_OK when the record passes rules 2 to 11, else the number of the first that
 * fails. */
uint8_t lpmag_check(const uint8_t *record, size_t length);

/* The fields of a record. Answers what lpmag_check answers; the struct changes only
 * when that is LPMAG_OK. */
uint8_t lpmag_fields(struct lpmag_fields *fields, const uint8_t *record, size_t length);

/* The packet of a record, into a room of LPMAG_PACKET bytes. Answers 1 when the room
 * is of another size, else what lpmag_check answers; the room changes only when that
 * is LPMAG_OK. (Where lpmag_check answers LPMAG_OK the packet stands at record +
 * LPMAG_PACKET_AT: no copy is needed to read it there.) */
uint8_t lpmag_packet(const uint8_t *record, size_t length, uint8_t *room, size_t room_length);

/* The kind of a packet's frame, the value: 0 to 35 for a real-time frame of that type,
 * LPMAG_HALF_BURST, LPMAG_FULL_BURST, LPMAG_OTHER or LPMAG_UNDEFINED; LPMAG_UNDEFINED too
 * for a packet that isn't of LPMAG_PACKET bytes. */
uint8_t lpmag_kind(const uint8_t *packet, size_t length);

/* The words for the number of a refusal, into a room of at least LPMAG_WORDS bytes:
 * the words, then a byte of 0; what comes after stays as found. A number that no refusal
 * has gets the byte of 0 alone. Answers how many bytes the words are, the value: 0 also
 * for a smaller room, which stays as found. */
size_t lpmag_refusal_words(uint8_t number, uint8_t *room, size_t room_length);

/* ---- the magnetometer ------------------------------------------------- */

/* The range 0 to 7 of LPMAG_MAG bytes, the value; LPMAG_NO_SUCH_PLACE for any other
 * number of bytes. */
uint8_t lpmag_range(const uint8_t *mag, size_t length);

/* The 54 samples of LPMAG_MAG bytes, -2,048 to 2,047, into a room of LPMAG_SAMPLES
 * numbers: vector by vector, x, y, z. Answers the range, the value;
 * LPMAG_NO_SUCH_PLACE when either size is another. */
uint8_t lpmag_samples(const uint8_t *mag, size_t length, int16_t *room, size_t room_length);

/* The nominal field in nT of a sample at a range, exact: 512 times it equals the
 * sample times 4 to the power of the range; sample 0 gives plus zero.
 * LPMAG_NO_SUCH_PLACE for a range above 7 or a sample outside -2,048 to 2,047. */
uint8_t lpmag_field(int16_t sample, uint8_t range, float *field);

/* A second of MAG in a burst, packet type 56 (000, section 2.4): of a record that passes
 * rules 2 to 11, its burst packet `which`, 0 for the first and 1 for the second. Range and
 * samples as lpmag_range and lpmag_samples give them of its 82 bytes. Each answers the range,
 * the value; LPMAG_NO_SUCH_PLACE for a record that doesn't pass, a packet that it hasn't (any
 * `which` above 1 too), a packet of another type, and a room of another size. */
uint8_t lpmag_burst_range(const uint8_t *record, size_t length, uint8_t which);
uint8_t lpmag_burst_samples(const uint8_t *record, size_t length, uint8_t which, int16_t *room,
                            size_t room_length);

/* ---- the electrons ---------------------------------------------------- */

/* An accumulation is LPMAG_CELLS bytes (01, "ER cells"):
 *      0 to 3     the header
 *      4 to 1667  pitch-angle samples of 16 angles each, by energy bin, each bin's
 *                 in time order: bins 0 to 5 have 2, bins 6 and 9 have 32, bins 7, 8
 *                 and 10 to 14 have 4
 *   1668 to 2987  3D: energy step e, angle b at 1668 + 88 e + b
 *   2988 to 2996  the top two bits of each type's frame code, in type order, four
 *                 types a byte, the first highest
 * `held` has the bit of weight 2^u set when the frame of type u, 0 to 35, is held.
 * lpmag_cell, lpmag_electron_sample, lpmag_three_d, lpmag_total and lpmag_rate answer
 * LPMAG_NO_SUCH_PLACE when a bit above 35 is set, when the cells are of another size,
 * and for any number out of its bounds; after that LPMAG_ABSENT when the frame that
 * carries the cell isn't held. Numbers lent for an answer change only when it is
 * LPMAG_OK. */

/* Lays one real-time frame into the cells: each of its LPMAG_SCIENCE bytes to the
 * cell that 000 section 2.3 gives it, the top two bits of its frame code (the type
 * byte) to its type's pair; all else stays as found. LPMAG_NO_SUCH_PLACE when the
 * type, the code's low six bits, is above 35 or either size is another. */
uint8_t lpmag_lay_electrons(uint8_t code, const uint8_t *science, size_t length, uint8_t *cells,
                            size_t cells_length);

/* The raw byte of cell 0 to 2987. */
uint8_t lpmag_cell(const uint8_t *cells, size_t length, uint64_t held, size_t cell, uint8_t *byte);

/* How many samples energy bin 0 to 14 has, the value: 2, 4 or 32; LPMAG_NO_SUCH_BIN
 * for any other bin. */
uint8_t lpmag_bin_samples(size_t bin);

/* The counts that a pitch-angle sample stands for, from *low to *high: energy bin 0 to
 * 14, the sample's number in its bin, from 0 in time order, angle 0 to 15. Bins 0 to 5,
 * 7 and 8 may be pre-scaled: they answer LPMAG_SCALE_UNKNOWN when the sample is held
 * but type 0, which carries the pre-scale state, isn't. */
uint8_t lpmag_electron_sample(const uint8_t *cells, size_t length, uint64_t held, size_t bin,
                              size_t number, size_t angle, uint64_t *low, uint64_t *high);

/* The counts of 3D energy step 0 to 14, angle 0 to 87. */
uint8_t lpmag_three_d(const uint8_t *cells, size_t length, uint64_t held, size_t step, size_t angle,
                      uint64_t *low, uint64_t *high);

/* Total counts and rate counter of the first half-spin (header bytes 2 and 3), in
 * counts: the division by 16 before compression is undone. Total rides in type 0,
 * Rate in type 1. */
uint8_t lpmag_total(const uint8_t *cells, size_t length, uint64_t held, uint64_t *low,
                    uint64_t *high);
uint8_t lpmag_rate(const uint8_t *cells, size_t length, uint64_t held, uint64_t *low,
                   uint64_t *high);

/* The counts of a code that were divided by 1, 8 (pre-scaled) or 16 (Total and Rate)
 * before they were compressed. Any other divisor: LPMAG_NO_SUCH_PLACE. */
uint8_t lpmag_count_range(uint8_t code, uint8_t divided_by, uint64_t *low, uint64_t *high);

/* The sum of two ranges: the lows added, the highs added. LPMAG_TOO_LARGE when either
 * sum is past 64 bits. */
uint8_t lpmag_count_sum(uint64_t low_a, uint64_t high_a, uint64_t low_b, uint64_t high_b,
                        uint64_t *low, uint64_t *high);

/* The angle 0 to 87 of an anode 0 to 15 at a spin phase 0 to 7 (000, section 2.3.2),
 * the value; else LPMAG_NO_SUCH_BIN. */
uint8_t lpmag_angle(size_t anode, size_t phase);

/* ---- the reader ------------------------------------------------------- */

/* One record in, one answer out. Between calls the caller keeps a state and seven
 * buffers, and hands each on as the last call left it:
 *   open cells         LPMAG_CELLS bytes: the open accumulation. 0 where no frame that
 *                      it holds carries the cell, and in the bit pair of a type that isn't
 *                      held; anything while none was ever open
 *   finished cells     LPMAG_CELLS bytes: the accumulation that was closed last; they
 *                      change only when one closes
 *   open samples       LPMAG_FRAME numbers: the open major frame. Slot s, MAG number k
 *                      (0 to 53: vector k / 3, axis k % 3) at 54 s + k; 0 where the slot
 *                      isn't held with MAG; anything while none was ever open
 *   finished samples   LPMAG_FRAME numbers: the major frame that was closed last; they
 *                      change only when one closes
 *   open snapshot      LPMAG_SNAPSHOT bytes: the open snapshot. 0 where no packet that it
 *                      holds carries the byte; anything while none was ever open
 *   first snapshot     LPMAG_SNAPSHOT bytes: the snapshot that a call closed, the first of
 *                      them where it closed two; it changes only when one closes into it
 *   second snapshot    LPMAG_SNAPSHOT bytes: the second of two that one record closed, likewise
 * A fresh state is all 0; the buffers may hold anything then.
 *
 * What is left of the input at its end, when it is shorter than a record, is one record
 * too: hand it to lpmag_step with its own length, which refuses it with 2. */

/* Answers LPMAG_OK when the record is accepted, and then `report` is its report and
 * `state` the state after it; else the number of the first rule that fails, and then
 * state, report and buffers stay as found. */
uint8_t lpmag_step(struct lpmag_state *state, struct lpmag_report *report, uint8_t *open_cells,
                   size_t open_cells_length, uint8_t *finished_cells, size_t finished_cells_length,
                   int16_t *open_samples, size_t open_samples_length, int16_t *finished_samples,
                   size_t finished_samples_length, uint8_t *open_snapshot,
                   size_t open_snapshot_length, uint8_t *first_snapshot,
                   size_t first_snapshot_length, uint8_t *second_snapshot,
                   size_t second_snapshot_length, const uint8_t *record, size_t length);

/* Takes whole records from the front of `bytes`, one after another, until one is
 * refused or closes something, or no whole one is left. Answers 1 when rule 1 fails, also
 * where there is no whole record: then nothing is taken, and state, `fed` and buffers stay
 * as found. Else LPMAG_OK, and `fed` says how many bytes were taken, what the last record
 * was answered and what it closed: a refused record is taken too, changes neither state
 * nor buffers, and is the last LPMAG_RECORD bytes of those taken. Where no record was taken
 * all of `fed` is 0. Call again with what is left until nothing is taken. */
uint8_t lpmag_feed(struct lpmag_state *state, struct lpmag_fed *fed, uint8_t *open_cells,
                   size_t open_cells_length, uint8_t *finished_cells, size_t finished_cells_length,
                   int16_t *open_samples, size_t open_samples_length, int16_t *finished_samples,
                   size_t finished_samples_length, uint8_t *open_snapshot,
                   size_t open_snapshot_length, uint8_t *first_snapshot,
                   size_t first_snapshot_length, uint8_t *second_snapshot,
                   size_t second_snapshot_length, const uint8_t *bytes, size_t length);

/* Closes what is open, the major frame, the accumulation and the snapshot, which goes into
 * the first finished one, and keeps the last accepted count. Answers LPMAG_OK, and then
 * `closed` says what it closed; or 1 where rule 1 fails, and then state, `closed` and buffers
 * stay as found. */
uint8_t lpmag_finish(struct lpmag_state *state, struct lpmag_closed *closed, uint8_t *open_cells,
                     size_t open_cells_length, uint8_t *finished_cells,
                     size_t finished_cells_length, int16_t *open_samples,
                     size_t open_samples_length, int16_t *finished_samples,
                     size_t finished_samples_length, uint8_t *open_snapshot,
                     size_t open_snapshot_length, uint8_t *first_snapshot,
                     size_t first_snapshot_length, uint8_t *second_snapshot,
                     size_t second_snapshot_length);

/* ---- questions about a finished major frame --------------------------- */

/* `major` is as reported (its spare field isn't looked at), `samples` the finished
 * samples. All three answer LPMAG_NO_SUCH_PLACE for a slot above 15, the two that take
 * samples also for samples of another size, and each in the cases that it names; only
 * after that LPMAG_ABSENT when the slot isn't held (for a sample and a field: isn't
 * marked as held with MAG). A number lent for an answer changes only when it is
 * LPMAG_OK. */

/* The subcom word of a slot. */
uint8_t lpmag_major_word(const struct lpmag_major *major, size_t slot, uint16_t *word);

/* MAG number 0 to 53 of a slot. LPMAG_NO_SUCH_PLACE also for any other number, and where
 * what stands there is outside -2,048 to 2,047. */
uint8_t lpmag_major_sample(const struct lpmag_major *major, const int16_t *samples,
                           size_t samples_length, size_t slot, size_t number, int16_t *sample);

/* Its nominal field in nT, as lpmag_field gives it. LPMAG_NO_SUCH_PLACE in the same
 * cases, and where the slot's range is above 7. */
uint8_t lpmag_major_field(const struct lpmag_major *major, const int16_t *samples,
                          size_t samples_length, size_t slot, size_t number, float *field);

/* ---- questions about a finished snapshot ------------------------------ */

/* A snapshot is LPMAG_SNAPSHOT bytes (000, section 2.4.1): half a spin of electrons.
 *      0 to 3     the header, as that of an accumulation
 *      4 to 1323  3D: energy step e, angle b at 4 + 88 e + b
 *   1324 to 1563  pitch angle data: energy e, angle a at 1324 + 16 e + a
 *   1564 to 1567  MagTh and MagPhi of the first magnetic sample, then of the second
 *   1568 to 1639  the ER table
 * The packet of type t, 36 to 55, carries the 82 bytes from 82 (t - 36) on. `held` is as
 * reported. All answer LPMAG_NO_SUCH_PLACE when a mark past type 55 is set (bit 20 or
 * above), when the snapshot is of another size, and for any number out of its bounds;
 * after that LPMAG_ABSENT when the packet that carries the byte isn't held. Numbers lent
 * for an answer change only when it is LPMAG_OK. Burst data is never pre-scaled. */

/* The raw byte 0 to 1639. */
uint8_t lpmag_snapshot_byte(const uint8_t *snapshot, size_t length, uint32_t held, size_t place,
                            uint8_t *byte);

/* The counts of 3D energy step 0 to 14, angle 0 to 87. */
uint8_t lpmag_snapshot_three_d(const uint8_t *snapshot, size_t length, uint32_t held, size_t step,
                               size_t angle, uint64_t *low, uint64_t *high);

/* The counts of pitch angle data: energy 0 to 14, angle 0 to 15. */
uint8_t lpmag_snapshot_pitch(const uint8_t *snapshot, size_t length, uint32_t held, size_t energy,
                             size_t angle, uint64_t *low, uint64_t *high);

/* Total counts and rate counter, header bytes 2 and 3, as lpmag_total and lpmag_rate. */
uint8_t lpmag_snapshot_total(const uint8_t *snapshot, size_t length, uint32_t held, uint64_t *low,
                             uint64_t *high);
uint8_t lpmag_snapshot_rate(const uint8_t *snapshot, size_t length, uint32_t held, uint64_t *low,
                            uint64_t *high);

/* The magnetic direction that sorted the electrons: number 0 is MagTh of the first sample,
 * 1 its MagPhi, 2 and 3 those of the second, each in 360/256 of a degree. */
uint8_t lpmag_snapshot_angle(const uint8_t *snapshot, size_t length, uint32_t held, size_t number,
                             uint8_t *angle);

#ifdef __cplusplus
}
#endif

/* ---- the structs are as the library has them -------------------------- */

#ifdef __cplusplus
#define LPMAG_HOLDS(fact) static_assert(fact, #fact)
#else
#define LPMAG_HOLDS(fact) _Static_assert(fact, #fact)
#endif
#define LPMAG_SIZE(type, size) LPMAG_HOLDS(sizeof(struct type) == size)
#define LPMAG_AT(type, field, at) LPMAG_HOLDS(offsetof(struct type, field) == at)

LPMAG_SIZE(lpmag_major, 64);
LPMAG_AT(lpmag_major, number, 0);
LPMAG_AT(lpmag_major, words, 8);
LPMAG_AT(lpmag_major, ranges, 40);
LPMAG_AT(lpmag_major, slots, 56);
LPMAG_AT(lpmag_major, mag_slots, 58);
LPMAG_AT(lpmag_major, spare32, 60);

LPMAG_SIZE(lpmag_accumulation, 40);
LPMAG_AT(lpmag_accumulation, first, 0);
LPMAG_AT(lpmag_accumulation, held, 8);
LPMAG_AT(lpmag_accumulation, last_count, 16);
LPMAG_AT(lpmag_accumulation, others, 24);
LPMAG_AT(lpmag_accumulation, last_type, 32);
LPMAG_AT(lpmag_accumulation, spare8, 33);
LPMAG_AT(lpmag_accumulation, spare16, 34);
LPMAG_AT(lpmag_accumulation, spare32, 36);

LPMAG_SIZE(lpmag_snapshot, 16);
LPMAG_AT(lpmag_snapshot, first, 0);
LPMAG_AT(lpmag_snapshot, held, 8);
LPMAG_AT(lpmag_snapshot, last_type, 12);
LPMAG_AT(lpmag_snapshot, cut, 13);
LPMAG_AT(lpmag_snapshot, spare16, 14);

LPMAG_SIZE(lpmag_state, 136);
LPMAG_AT(lpmag_state, last, 0);
LPMAG_AT(lpmag_state, any, 8);
LPMAG_AT(lpmag_state, spare8, 9);
LPMAG_AT(lpmag_state, spare16, 10);
LPMAG_AT(lpmag_state, spare32, 12);
LPMAG_AT(lpmag_state, accumulation, 16);
LPMAG_AT(lpmag_state, major, 56);
LPMAG_AT(lpmag_state, snapshot, 120);

LPMAG_SIZE(lpmag_fields, 32);
LPMAG_AT(lpmag_fields, count, 0);
LPMAG_AT(lpmag_fields, millisecond, 4);
LPMAG_AT(lpmag_fields, level, 8);
LPMAG_AT(lpmag_fields, quality, 12);
LPMAG_AT(lpmag_fields, day, 16);
LPMAG_AT(lpmag_fields, subcom, 18);
LPMAG_AT(lpmag_fields, first_flag, 20);
LPMAG_AT(lpmag_fields, second_flag, 21);
LPMAG_AT(lpmag_fields, third_flag, 22);
LPMAG_AT(lpmag_fields, frame_code, 23);
LPMAG_AT(lpmag_fields, frame_type, 24);
LPMAG_AT(lpmag_fields, kind, 25);
LPMAG_AT(lpmag_fields, level_finite, 26);
LPMAG_AT(lpmag_fields, quality_finite, 27);
LPMAG_AT(lpmag_fields, second_code, 28);
LPMAG_AT(lpmag_fields, spare8, 29);
LPMAG_AT(lpmag_fields, spare16, 30);

LPMAG_SIZE(lpmag_closed_snapshot, 16);
LPMAG_AT(lpmag_closed_snapshot, first, 0);
LPMAG_AT(lpmag_closed_snapshot, held, 8);
LPMAG_AT(lpmag_closed_snapshot, closed, 12);
LPMAG_AT(lpmag_closed_snapshot, spare8, 13);
LPMAG_AT(lpmag_closed_snapshot, spare16, 14);

LPMAG_SIZE(lpmag_closed, 120);
LPMAG_AT(lpmag_closed, major, 0);
LPMAG_AT(lpmag_closed, accumulation_first, 64);
LPMAG_AT(lpmag_closed, accumulation_held, 72);
LPMAG_AT(lpmag_closed, major_closed, 80);
LPMAG_AT(lpmag_closed, accumulation_closed, 81);
LPMAG_AT(lpmag_closed, spare16, 82);
LPMAG_AT(lpmag_closed, spare32, 84);
LPMAG_AT(lpmag_closed, first_snapshot, 88);
LPMAG_AT(lpmag_closed, second_snapshot, 104);

LPMAG_SIZE(lpmag_report, 160);
LPMAG_AT(lpmag_report, fields, 0);
LPMAG_AT(lpmag_report, gap, 32);
LPMAG_AT(lpmag_report, spare8, 33);
LPMAG_AT(lpmag_report, spare16, 34);
LPMAG_AT(lpmag_report, spare32, 36);
LPMAG_AT(lpmag_report, closed, 40);

LPMAG_SIZE(lpmag_fed, 136);
LPMAG_AT(lpmag_fed, taken, 0);
LPMAG_AT(lpmag_fed, answer, 8);
LPMAG_AT(lpmag_fed, spare8, 9);
LPMAG_AT(lpmag_fed, spare16, 10);
LPMAG_AT(lpmag_fed, spare32, 12);
LPMAG_AT(lpmag_fed, closed, 16);

#undef LPMAG_AT
#undef LPMAG_SIZE
#undef LPMAG_HOLDS

#endif
