/* Streams of anything, a seed each. */
#include "streams.h"

#include "base/text.h"
#include "sending.h"

/* ---- what is sent ----------------------------------------------------- */

/* From the first count, or shortly before the last of the turn, or anywhere; from any type. */
static void begin_anywhere(struct sending *sending, uint64_t seed)
{
    struct random random = {seed};
    uint32_t count = 0;
    if (random_once_in(&random, 4))
        count = COUNTS - 1 - random_below(&random, 1000);
    else if (!random_once_in(&random, 4))
        count = random_below(&random, COUNTS);
    uint8_t type = (uint8_t)random_below(&random, TYPES);
    sending_begin(sending, random_next(&random), count, type);
}

/* Mostly the next type, now and then any. */
static void send_any(struct sending *sending)
{
    if (random_once_in(&sending->random, 8))
        sending->type = (uint8_t)random_below(&sending->random, TYPES);
    if (random_once_in(&sending->random, 10))
        send_others(sending, 1);
    else if (random_once_in(&sending->random, 3))
        send_any_burst(sending);
    else
        send_frames(sending, 1);
}

/* Mostly none are lost, often about as many as tear an accumulation, now and then as many as
 * leave the next record later. */
static uint32_t any_loss(struct random *random)
{
    switch (random_below(random, 16)) {
    case 0:
        return random_between(random, 29, 39);
    case 1:
        return random_between(random, 59, 74);
    case 2:
        return random_below(random, 300);
    case 3:
        return random_between(random, 1, 4);
    case 4:
        return random_once_in(random, 8) ? AHEAD - 1 - random_below(random, 3) : 0;
    default:
        return 0;
    }
}

static void lose_any(struct sending *sending)
{
    uint32_t loss = any_loss(&sending->random);
    if (random_once_in(&sending->random, 2))
        lose_frames(sending, loss);
    else
        lose_others(sending, loss);
}

/* ---- what is refused -------------------------------------------------- */

/* Breaks any rule from 3 to the last given. */
static void print_any_refused(struct sending *sending, unsigned last)
{
    unsigned rule = random_between(&sending->random, FIRST_BROKEN, last);
    print_refused(sending, rule, random_below(&sending->random, forms_of(rule)));
}

/* A short tail, or none. */
static void print_any_tail(struct sending *sending)
{
    if (random_once_in(&sending->random, 2))
        print_bytes(sending->last, random_below(&sending->random, GENERATE_RECORD));
}

/* ---- the streams ------------------------------------------------------ */

void print_any(uint64_t seed)
{
    struct sending sending;
    begin_anywhere(&sending, seed);
    uint32_t left = random_between(&sending.random, 1, 300);
    for (; left > 0; left--) {
        if (random_once_in(&sending.random, 10))
            print_any_refused(&sending, LATE);
        send_any(&sending);
        lose_any(&sending);
    }
    print_any_tail(&sending);
}

void print_repeated(uint64_t seed)
{
    struct sending sending;
    begin_anywhere(&sending, seed);
    uint32_t left = random_between(&sending.random, 1, 100);
    for (; left > 0; left--) {
        send_any(&sending);
        for (uint32_t again = random_between(&sending.random, 1, 3); again > 0; again--)
            print_bytes(sending.last, GENERATE_RECORD);
        lose_any(&sending);
    }
}

/* Rule 12 can't be broken while nothing is accepted. */
void print_spoiled(uint64_t seed)
{
    struct sending sending;
    begin_anywhere(&sending, seed);
    for (uint32_t left = random_between(&sending.random, 1, 100); left > 0; left--)
        print_any_refused(&sending, LATE - 1);
    print_any_tail(&sending);
}

void print_random(uint64_t seed)
{
    struct random random = {seed};
    for (uint32_t left = random_below(&random, 20 * GENERATE_RECORD); left > 0; left--) {
        uint8_t byte = (uint8_t)random_next(&random);
        print_bytes(&byte, 1);
    }
}

/* Jumps up to the last turn, whose last count is `last`; then some records in order up to that.
 * Refused ones come between; in the last turn they are lower, and later or not. */
void print_climb(uint64_t seed)
{
    enum { IN_ORDER = 20 };
    const uint64_t last = 4096 * (uint64_t)COUNTS - 1;
    struct sending sending;
    begin_anywhere(&sending, seed);
    uint64_t count = sending.count; /* the full one of the next record */
    for (; count + AHEAD <= last - IN_ORDER; count += AHEAD) {
        send_any(&sending);
        if (random_once_in(&sending.random, 8))
            print_any_refused(&sending, LATE);
        lose_frames(&sending, AHEAD - 1);
    }
    send_any(&sending);
    print_of_count(&sending, (sending.last_count + AHEAD) % COUNTS);
    lose_frames(&sending, (uint32_t)(last - count) - IN_ORDER);
    for (uint32_t left = IN_ORDER; left > 0; left--) {
        send_any(&sending);
        print_of_count(&sending, random_below(&sending.random, 100));
    }
    for (uint32_t refused = 0; refused < 10; refused++)
        print_of_count(&sending, AHEAD - 5 + refused);
}
