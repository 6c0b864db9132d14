/* The printed example, the samples of whole streams, and a long stream. */
#include "samples.h"

#include "base/text.h"
#include "sending.h"

/* 01, "The listing, whole": "counts 32 and 48, both type 0". */
void print_example(uint64_t seed)
{
    struct sending sending;
    sending_begin(&sending, seed, 32, 0);
    send_frames(&sending, 1);
    lose_others(&sending, 15);
    sending.type = 0;
    send_frames(&sending, 1);
}

/* Accumulations handed out whole and in part, by what is lost between their frames. */
void print_stream(uint64_t seed)
{
    struct sending sending;
    sending_begin(&sending, seed, 7325805, 0);

    /* Two whole ones; in the second comes the playback of a burst, so many frames that it would
     * be torn if they were taken for lost: a marker with bit 6, a whole snapshot with a marker and
     * fill without it inside, a second of MAG and the start of another snapshot, which the end of
     * the file closes. */
    send_frames(&sending, 36);
    send_frames(&sending, 20);
    send_code(&sending, BIT_6 | 57, 0);
    send_half_bursts(&sending, 36, 53);
    send_code(&sending, 57, 0);
    send_code(&sending, 62, 0);
    send_half_bursts(&sending, 54, 56);
    send_half_bursts(&sending, 36, 47);
    send_frames(&sending, 16);

    /* Dropouts shorter than 36: inside an accumulation, whose frames join; and from one
     * into the next. */
    send_frames(&sending, 4);
    lose_frames(&sending, 20);
    send_frames(&sending, 12);
    lose_frames(&sending, 28);
    send_frames(&sending, 3);
    lose_frames(&sending, 10);
    send_frames(&sending, 3);

    /* A longer one, after which the type has risen: it is another accumulation's. */
    lose_frames(&sending, 62);
    send_frames(&sending, 2);

    /* A torn one: 36 frames without science were lost between two of its frames. */
    send_frames(&sending, 5);
    lose_others(&sending, 36);
    send_frames(&sending, 3);

    /* Memory dumps alone in a major frame, and frames that the end of the file closes. */
    lose_frames(&sending, 30);
    send_dumps(&sending, 2);
    lose_frames(&sending, 60);
    send_frames(&sending, 2);
}

/* Each rule from 3 to 12 is broken in three forms. */
enum { FORMS = 3 };

/* The short tail: the first bytes of a record. */
#define TAIL 100

/* Good records, and refused ones among them, by turns instead of one that was sent
 * and beside it. The first of all is refused, with nothing accepted before. */
void print_refusals(uint64_t seed)
{
    struct sending sending;
    sending_begin(&sending, seed, 7325806, 30);
    for (uint32_t round = 0; round < FORMS * BROKEN; round++) {
        unsigned rule = FIRST_BROKEN + round % BROKEN;
        print_refused(&sending, rule, round / BROKEN * forms_of(rule) / FORMS);
        if (round % 2 == 0)
            lose_frames(&sending, 1);
        send_frames(&sending, 1);
        if (round % 4 == 0)
            send_dumps(&sending, 1);
        if (round % BROKEN == BROKEN - 1)
            lose_frames(&sending, 40);
    }

    /* Two rules at once: the first is the answer. */
    for (unsigned rule = FIRST_BROKEN; rule < LATE; rule += 2) {
        print_refused_twice(&sending, rule, rule + 1);
        send_frames(&sending, 1);
    }
    print_bytes(sending.last, TAIL);
}

/* The clock goes round twice (02, request 1). */
void print_turn(uint64_t seed)
{
    struct sending sending;
    sending_begin(&sending, seed, 16777195, 27);

    /* The end of an accumulation, and the start of one that goes on in the next turn, up to the
     * last count; then a record that was delayed. */
    send_frames(&sending, 9);
    send_frames(&sending, 8);
    send_dumps(&sending, 1);
    send_frames(&sending, 3);
    print_of_count(&sending, 16777213);

    /* The restart, and a delayed record from before it; then the rest of the accumulation and the
     * start of another. */
    send_frames(&sending, 1);
    print_of_count(&sending, 16777214);
    send_frames(&sending, 10);
    send_dumps(&sending, 1);
    send_frames(&sending, 14);
    send_frames(&sending, 6);

    /* The farthest count that is later, 31 + 8,388,607; before it the next, which isn't. */
    print_of_count(&sending, 8388639);
    lose_frames(&sending, 8388606);
    send_frames(&sending, 1);

    /* On to the end of this turn, and a dropout across it inside an accumulation. */
    lose_others(&sending, 20);
    lose_frames(&sending, 8388551);
    send_frames(&sending, 3);
    lose_frames(&sending, 5);
    send_frames(&sending, 4);
}

/* Bursts (02, request 2): snapshots whole, and cut in each of the ways. */
void print_bursts(uint64_t seed)
{
    struct sending sending;
    sending_begin(&sending, seed, 8000000, 30);

    /* Triggered playback: half bursts among real-time frames. A marker with bit 6 begins it; then
     * a whole snapshot, with real-time frames of two accumulations and a memory dump in it, and a
     * second of MAG, whose bit 6 is clear. */
    send_frames(&sending, 4);
    send_code(&sending, BIT_6 | 57, 0);
    send_half_bursts(&sending, 36, 40);
    send_frames(&sending, 3);
    send_half_bursts(&sending, 41, 52);
    send_dumps(&sending, 1);
    send_frames(&sending, 1);
    send_half_bursts(&sending, 53, 56);

    /* A marker without bit 6 and fill cut nothing; bit 6 of a second of MAG does, though there it
     * is a timing bit (000 section 2.2). */
    send_half_bursts(&sending, 36, 41);
    send_code(&sending, 57, 0);
    send_half_bursts(&sending, 42, 45);
    send_code(&sending, 62, 0);
    send_half_bursts(&sending, 46, 48);
    send_code(&sending, BIT_6 | 56, 0);
    send_half_bursts(&sending, 49, 55);

    /* A torn one: the count of type 43 is missing. */
    send_frames(&sending, 2);
    send_half_bursts(&sending, 36, 42);
    lose_others(&sending, 1);
    send_half_bursts(&sending, 44, 47);

    /* A marker whose bit 6 begins another burst, which goes on with a higher type. */
    send_code(&sending, BIT_6 | 57, 0);
    send_half_bursts(&sending, 48, 51);

    /* A packet's own bit 6. */
    send_code(&sending, BIT_6 | 52, 0);
    send_half_bursts(&sending, 53, 55);
    send_frames(&sending, 2);

    /* Commanded playback: full bursts. The first two have a second of MAG and a marker with bit 6;
     * then a whole snapshot, and the start of one. */
    send_code(&sending, TOP_BIT | 56, 56);
    send_code(&sending, TOP_BIT | BIT_6 | 57, 36);
    send_full_bursts(&sending, 37, 54);
    send_code(&sending, TOP_BIT | 55, 56);
    send_full_bursts(&sending, 36, 49);

    /* A frame that closes two: 40 isn't above 49, nor 39 above 40. */
    send_code(&sending, TOP_BIT | 40, 39);
    send_full_bursts(&sending, 40, 43);

    /* Bit 6 of the second of two packets, and of the first. */
    send_code(&sending, TOP_BIT | 44, BIT_6 | 45);
    send_code(&sending, TOP_BIT | BIT_6 | 46, 47);

    /* Second types that rule 11 refuses, with the top bits set and clear: instead of a frame that
     * was sent, so that its count is missing; and beside one, so that none is. */
    print_of_code(&sending, TOP_BIT | 48, 63);
    lose_others(&sending, 1);
    send_full_bursts(&sending, 50, 51);
    print_of_code(&sending, TOP_BIT | 52, TOP_BIT | BIT_6 | 35);
    print_of_code(&sending, TOP_BIT | 62, 58);
    send_full_bursts(&sending, 52, 53);

    /* The end of the file closes a snapshot, of which two packets are missing, and what else is
     * open. */
    send_code(&sending, 36, 0);
    send_code(&sending, 39, 0);
    send_frames(&sending, 2);
}

/* Counts from 1, types from 0. */
void print_many(uint64_t seed, uint64_t records)
{
    struct sending sending;
    sending_begin(&sending, seed, 1, 0);
    for (; records > 0; records--) {
        if (random_once_in(&sending.random, 200))
            lose_frames(&sending, random_between(&sending.random, 1, 100));
        if (random_once_in(&sending.random, 40))
            send_dumps(&sending, 1);
        else
            send_frames(&sending, 1);
    }
}
