/* Records made from a seed and printed to standard output: as they are sent, and refused ones. */
#ifndef SENDING_H
#define SENDING_H

#include "generate.h"

enum { TYPES = 36 };

/* The counts of a turn, 24 bits; and how far ahead of the last accepted record one can be and be
 * later (02, request 1). */
#define COUNTS 16777216
#define AHEAD 8388607

/* ---- records as they are sent ----------------------------------------- */

/* Counts rise by one with each record and restart at 0 after the last; the types of real-time
 * frames go round and round. */
struct sending {
    struct random random;
    uint32_t count;                /* of the next record */
    uint8_t type;                  /* of the next real-time frame */
    uint8_t packet;                /* the type of the last burst packet that send_any_burst sent */
    uint8_t last[GENERATE_RECORD]; /* the last one printed; at first one of an earlier count */
    uint32_t last_count;
};

void sending_begin(struct sending *sending, uint64_t seed, uint32_t count, uint8_t type);

/* So many real-time frames or other frames: they come in, and are printed; or they
 * are lost on the way. */
void send_frames(struct sending *sending, uint32_t frames);
void send_others(struct sending *sending, uint32_t frames);
void lose_frames(struct sending *sending, uint32_t frames);
void lose_others(struct sending *sending, uint32_t frames);

/* A frame of that code, with that second one if it is a full burst; memory dumps; half bursts with
 * one packet after the other of the types from `first` to `last`, and full bursts with two a
 * frame. */
void send_code(struct sending *sending, uint8_t code, uint8_t second_code);
void send_dumps(struct sending *sending, uint32_t frames);
void send_half_bursts(struct sending *sending, uint8_t first, uint8_t last);
void send_full_bursts(struct sending *sending, uint8_t first, uint8_t last);

/* A half or full burst, mostly with the packets that come next in a snapshot. */
void send_any_burst(struct sending *sending);

/* The frame of a letter of a stream written as text: f is a real-time frame, o an
 * other frame; F and O are the same, lost. */
void send_letter(struct sending *sending, char letter);
void lose_letter(struct sending *sending, char letter);

/* ---- records that are refused ----------------------------------------- */

/* The rules that a record of 472 bytes can break after any other. (It breaks 14 only in the last
 * turn.) */
enum { FIRST_BROKEN = 3, LATE = 12, BROKEN = LATE - FIRST_BROKEN + 1 };

/* The number of forms in which a rule can be broken. */
uint32_t forms_of(unsigned rule);

/* Prints a record that might be sent next but breaks one rule, or two at once, or has that
 * count or those codes. It is not sent: the next one has the same count. */
void print_refused(struct sending *sending, unsigned rule, uint32_t form);
void print_refused_twice(struct sending *sending, unsigned rule, unsigned also);
void print_of_count(struct sending *sending, uint32_t count);
void print_of_code(struct sending *sending, uint8_t code, uint8_t second_code);

#endif
