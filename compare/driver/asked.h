/* The questions about an accumulation and about a snapshot: what is asked about, what is expected by the
 * rules of 01 in their shortest form, and what is asked with. */
#ifndef ASKED_H
#define ASKED_H

#include "differ.h"
#include "electrons.h"

/* ---- what is asked about ---------------------------------------------- */

struct whole {
    const char *changed; /* what is said where a question changes one */
    size_t length;
    size_t places;                    /* that can be asked for */
    unsigned types;                   /* that carry them */
    uint8_t (*carrier)(size_t place); /* which of the types does */
    unsigned bits;                    /* of the number that has the marks */
    size_t marks;                     /* how many to ask with */
    const size_t *sizes;              /* to ask about, right and wrong */
    size_t size_count;
};
extern const struct whole accumulation, snapshot;

/* One that is lent, and the marks of the types held. */
struct asked {
    const struct whole *whole;
    const uint8_t *made; /* what its bytes have to stay */
    const uint8_t *bytes;
    size_t length;
    uint64_t held;
};
struct asked lend_asked(struct drive *drive, const struct whole *whole, const uint8_t *made, size_t length,
                        uint64_t held);

/* Likewise of the right length, any bytes being made. */
struct asked lend_any(struct drive *drive, const struct whole *whole, uint8_t *made, uint64_t held);

/* It as the functions have it; those about a snapshot have the marks in 32 bits. */
#define ASKED(asked) (asked)->bytes, (asked)->length, (asked)->held
#define ASKED_32(asked) (asked)->bytes, (asked)->length, (uint32_t)(asked)->held

/* After questions, the last of that function. */
void expect_unchanged(struct drive *drive, enum function function, const struct asked *asked);

/* ---- what is expected ------------------------------------------------- */

/* The answer for a place, NO_PLACE where none was named: LPMAG_OK, LPMAG_NO_SUCH_PLACE or
 * LPMAG_ABSENT. */
#define NO_PLACE SIZE_MAX
uint8_t expected_answer(const struct asked *asked, size_t place);

/* What a question for counts has to answer, and with LPMAG_OK their range. */
struct expected {
    uint8_t answer;
    uint64_t low;
    uint64_t high;
};

/* LPMAG_OK and the counts of a code that were divided by that number (01, "Counts"); and what is
 * expected of those at a place. */
struct expected expected_counts(uint8_t code, uint64_t divided_by);
struct expected expected_counts_at(const struct asked *asked, size_t place, uint64_t divided_by);

/* Holds both answers and ranges to each other and to what is expected; likewise a byte, which has to be
 * that of a place. */
void compare_counts(struct drive *drive, const struct question *question, const struct ranges *ranges,
                    uint8_t first, uint8_t second, struct expected expected);
void compare_byte_at(struct drive *drive, const struct question *question, const struct asked *asked,
                     struct rooms *rooms, uint8_t first, uint8_t second, size_t place);

/* ---- what is asked with ----------------------------------------------- */

/* Held marks, as many as the whole has: none, each type alone, all, all but each, any, and every mark
 * past the last type, alone or among others. */
enum { MOST_MARKS = 160 };
void make_marks(struct random *random, const struct whole *whole, uint64_t *marks);
#define ALL_PACKETS MARKS_OF(PACKETS)

/* Numbers to ask with: 0 to `last`, then ones so large that a sum or a product
 * leaves 64 bits, or that only their low bits are small. Answers how many. */
enum { MOST_NUMBERS = 3200 };
size_t make_numbers(size_t last, size_t *numbers);

/* ---- how it is asked -------------------------------------------------- */

/* What is asked about one, the last by that function; then it has to be as made. */
typedef void ask(struct drive *drive, const struct asked *asked);

/* With every mark: about any bytes of the right length; about those of each size. */
void ask_with_marks(struct drive *drive, const struct whole *whole, enum function function, ask *ask);
void ask_of_sizes(struct drive *drive, const struct whole *whole, enum function function, ask *ask);

#endif
