/* The second reader's counts and angles: the ranges by compressing every count,
 * the angles by 000's map. */
#include "counts.h"

#include <stdbool.h>

/* ---- counts ----------------------------------------------------------- */

/* 000 section 2.6, from the counter to the code: "a 4 bit exponent with 4 bit
 * mantissa (hidden bit)", "Un-transmitted bits of the mantissa are truncated". */
static uint8_t compress(uint32_t count)
{
    uint32_t exponent = 0;
    if (count >= 16)
        exponent = 1;
    for (; count >= 32; count /= 2)
        exponent++;
    return (uint8_t)(16 * exponent + count % 16);
}

enum { CODES = 256, LARGEST_COUNT = 524287 };

struct counts {
    uint32_t least;
    uint32_t most;
};

/* The counts that give each code, by compressing every count once. */
static const struct counts *counts(void)
{
    static struct counts found[CODES];
    static bool made = false;
    if (!made) {
        for (uint32_t count = 0; count <= LARGEST_COUNT; count++)
            found[compress(count)].most = count;
        for (uint32_t count = LARGEST_COUNT + 1; count-- > 0;)
            found[compress(count)].least = count;
        made = true;
    }
    return found;
}

/* "Note that pre-scaled data is also not rounded but truncated": the largest
 * count is the last before the one that divides to a larger number. */
uint8_t second_count_range(uint8_t code, uint8_t divided_by, uint64_t *low, uint64_t *high)
{
    if (divided_by != 1 && divided_by != 8 && divided_by != 16)
        return SECOND_NO_SUCH_PLACE;

    struct counts divided = counts()[code];
    *low = (uint64_t)divided_by * divided.least;
    *high = (uint64_t)divided_by * (divided.most + 1) - 1;
    return SECOND_OK;
}

/* A sum past 64 bits comes out below what was added to. */
uint8_t second_count_sum(uint64_t low_a, uint64_t high_a, uint64_t low_b, uint64_t high_b, uint64_t *low,
                         uint64_t *high)
{
    uint64_t low_sum = low_a + low_b;
    uint64_t high_sum = high_a + high_b;
    if (low_sum < low_a || high_sum < high_a)
        return SECOND_TOO_LARGE;
    *low = low_sum;
    *high = high_sum;
    return SECOND_OK;
}

/* ---- angles ----------------------------------------------------------- */

enum { ANODES = 16, PHASES = 8 };

/* 000 section 2.3.2, the phase space map: a line for each anode, a column for
 * each spin phase, and an angle that covers several phases written in each. Which
 * it covers is told by 01, "Angles", where the printed map is unclear. */
static const uint8_t phase_space_map[ANODES][PHASES] = {
    {0, 0, 0, 0, 1, 1, 1, 1},
    {2, 2, 3, 3, 4, 4, 5, 5},
    {6, 7, 8, 9, 10, 11, 12, 13},
    {14, 15, 16, 17, 18, 19, 20, 21},
    {22, 23, 24, 25, 26, 27, 28, 29},
    {30, 31, 32, 33, 34, 35, 36, 37},
    {38, 38, 39, 39, 40, 40, 41, 41},
    {42, 42, 42, 42, 43, 43, 43, 43},
    {44, 44, 44, 44, 45, 45, 45, 45},
    {46, 46, 47, 47, 48, 48, 49, 49},
    {50, 51, 52, 53, 54, 55, 56, 57},
    {58, 59, 60, 61, 62, 63, 64, 65},
    {66, 67, 68, 69, 70, 71, 72, 73},
    {74, 75, 76, 77, 78, 79, 80, 81},
    {82, 82, 83, 83, 84, 84, 85, 85},
    {86, 86, 86, 86, 87, 87, 87, 87},
};

uint8_t second_angle(size_t anode, size_t phase)
{
    if (anode >= ANODES || phase >= PHASES)
        return SECOND_NO_SUCH_BIN;
    return phase_space_map[anode][phase];
}
