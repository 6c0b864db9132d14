/* How long laying a frame takes: lpmag_lay_electrons of include/lpmag.h and the
 * same in C, one after the other on the same frames. */
#include "laying_c.h"
#include "timing.h"

#include "../compare/base/random.h"
#include "../compare/base/text.h"
#include "../compare/second/electrons.h"
#include "../include/lpmag.h"

#include <system.h>

/* Frames of all 36 types in order, as packets: more than a core's first cache
 * holds. They are gone over PASSES times for one timing. */
enum { TYPES = 36, ACCUMULATIONS = 64, FRAMES = TYPES * ACCUMULATIONS, PASSES = 20, REPEATS = 101 };

static uint8_t packets[FRAMES][LPMAG_PACKET];

typedef uint8_t laying(uint8_t, const uint8_t *, size_t, uint8_t *, size_t);

static void make_packets(void)
{
    struct random random = {1998};
    for (size_t i = 0; i < FRAMES; i++) {
        random_fill(&random, packets[i], LPMAG_PACKET);
        packets[i][0] = (uint8_t)((packets[i][0] & 0xC0) | i % TYPES);
    }
}

/* Lays frames into the cells; every one has to fit. */
static void lay(laying *function, const uint8_t (*frames)[LPMAG_PACKET], size_t count, uint8_t *cells)
{
    unsigned refused = 0;
    for (size_t i = 0; i < count; i++)
        refused |= function(frames[i][0], frames[i] + LPMAG_SCIENCE_AT, LPMAG_SCIENCE, cells, LPMAG_CELLS);
    if (refused != 0)
        fail(1, "bench: a frame was refused");
}

/* ---- that all do the same --------------------------------------------- */

static void expect_same(const uint8_t *one, const uint8_t *other)
{
    if (memcmp(one, other, LPMAG_CELLS) != 0)
        fail(1, "bench: the cells aren't equal");
}

/* Every accumulation, laid into cells that were found with other bytes. */
static void expect_equal_layings(void)
{
    uint8_t first[LPMAG_CELLS], in_c[LPMAG_CELLS], second[LPMAG_CELLS];
    for (size_t i = 0; i < FRAMES; i += TYPES) {
        memset(first, 0x55, sizeof first);
        memset(in_c, 0xAA, sizeof in_c);
        memset(second, 0xFF, sizeof second);
        lay(lpmag_lay_electrons, packets + i, TYPES, first);
        lay(laying_c, packets + i, TYPES, in_c);
        lay(second_lay_electrons, packets + i, TYPES, second);
        expect_same(first, second);
        expect_same(in_c, second);
    }
}

/* ---- how long they take ----------------------------------------------- */

static uint64_t time_passes(laying *function, uint8_t *cells)
{
    uint64_t start = nanoseconds();
    for (unsigned i = 0; i < PASSES; i++)
        lay(function, packets, FRAMES, cells);
    return nanoseconds() - start;
}

int main(void)
{
    static _Alignas(64) uint8_t first_cells[LPMAG_CELLS], c_cells[LPMAG_CELLS];
    static struct timings first, in_c;
    make_packets();
    expect_equal_layings();

    /* In turn, each as often before the other as after it. */
    for (size_t i = 0; i < REPEATS; i++) {
        if (i % 2 == 0)
            add_timing(&first, time_passes(lpmag_lay_electrons, first_cells));
        add_timing(&in_c, time_passes(laying_c, c_cells));
        if (i % 2 != 0)
            add_timing(&first, time_passes(lpmag_lay_electrons, first_cells));
    }
    expect_same(first_cells, c_cells);
    sort_timings(&first);
    sort_timings(&in_c);

    print_text("laying, ");
    print_number(FRAMES);
    print_text(" frames of all types in order, ");
    print_number(PASSES);
    print_text(" times a timing, ");
    print_number(REPEATS);
    print_text(" timings each\n");
    print_times("first: ", &first, PASSES * FRAMES, "frame");
    print_times("C: ", &in_c, PASSES * FRAMES, "frame");
    print_ratios("first / C: ", &first, &in_c);
    print_flush();
    return 0;
}
