/* The listing (01, "The listing, whole"; 02, request 2) as a whole program over the step in C.
 *   list_c [FILE] */
#include "input.h"
#include "step_c.h"

#include "../compare/base/text.h"

static struct lpmag_state state;
static _Alignas(64) uint8_t open_cells[LPMAG_CELLS], finished_cells[LPMAG_CELLS];
static _Alignas(64) int16_t open_samples[LPMAG_FRAME], finished_samples[LPMAG_FRAME];
static _Alignas(64) uint8_t open_snapshot[LPMAG_SNAPSHOT], first_snapshot[LPMAG_SNAPSHOT];
static _Alignas(64) uint8_t second_snapshot[LPMAG_SNAPSHOT];
static uint64_t refused;

static void print_line(const char *kind, uint64_t first, int frames, int cells)
{
    print_text(kind);
    print_number(first);
    print_text(" ");
    print_number((uint64_t)frames);
    print_text(" ");
    print_number((uint64_t)cells);
    print_text("\n");
}

static void print_major(const struct lpmag_major *major)
{
    print_line("major ", 16 * major->number, __builtin_popcount(major->slots),
               LPMAG_SAMPLES * __builtin_popcount(major->mag_slots));
}

static void print_accumulation(uint64_t first, uint64_t held)
{
    int frames = __builtin_popcountll(held);
    print_line("accum ", first, frames, LPMAG_SCIENCE * frames);
}

static void print_snapshot(uint64_t first, uint32_t held)
{
    int packets = __builtin_popcount(held);
    print_line("snap ", first, packets, LPMAG_BURST * packets);
}

static void list_record(const uint8_t *record, size_t length)
{
    struct lpmag_report report;
    if (step_c(&state, &report, open_cells, LPMAG_CELLS, finished_cells, LPMAG_CELLS, open_samples,
               LPMAG_FRAME, finished_samples, LPMAG_FRAME, open_snapshot, LPMAG_SNAPSHOT, first_snapshot,
               LPMAG_SNAPSHOT, second_snapshot, LPMAG_SNAPSHOT, record, length) != LPMAG_OK) {
        refused++;
        return;
    }
    if (report.closed.major_closed)
        print_major(&report.closed.major);
    if (report.closed.accumulation_closed)
        print_accumulation(report.closed.accumulation_first, report.closed.accumulation_held);
    if (report.closed.first_snapshot.closed)
        print_snapshot(report.closed.first_snapshot.first, report.closed.first_snapshot.held);
    if (report.closed.second_snapshot.closed)
        print_snapshot(report.closed.second_snapshot.first, report.closed.second_snapshot.held);
}

/* What is still open is handed out as it is. */
static void list_end(void)
{
    if (state.major.slots != 0)
        print_major(&state.major);
    if (state.accumulation.held != 0)
        print_accumulation(state.accumulation.first, state.accumulation.held);
    if (state.snapshot.held != 0)
        print_snapshot(state.snapshot.first, state.snapshot.held);
    print_text("refused ");
    print_number(refused);
    print_text("\n");
}

int main(int argc, char **argv)
{
    static struct input input;
    size_t length;
    begin_input(&input, argc > 1 ? argv[1] : NULL);
    print_text("kind first frames cells\n");
    while ((length = next_records(&input)) > 0)
        for (size_t at = 0; at < length; at += LPMAG_RECORD)
            list_record(input.bytes + at, length - at < LPMAG_RECORD ? length - at : LPMAG_RECORD);
    list_end();
    print_flush();
    return 0;
}
