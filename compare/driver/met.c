#include "met.h"

#include "base/text.h"
#include "input/generate.h"

/* Prints how often something was met; ends the program if it never was. */
static void print_met(const char *what, uint64_t times)
{
    print_text(what);
    print_text(": ");
    print_number(times);
    print_text("\n");
    if (times == 0)
        fail(1, "compare: the last of these was never met, so nothing is known about it");
}

/* Likewise of something that is named in two parts, or with a number at its end. */
static void print_met_of(const char *of, const char *what, uint64_t times)
{
    print_text(of);
    print_met(what, times);
}

static void print_met_with(const char *what, uint64_t number, uint64_t times)
{
    print_text(what);
    print_number(number);
    print_met("", times);
}

static void find_rarer(uint64_t *least, uint64_t times)
{
    *least = times < *least ? times : *least;
}

static uint64_t rarest(const uint64_t *times, size_t length)
{
    uint64_t least = UINT64_MAX;
    for (size_t i = 0; i < length; i++)
        find_rarer(&least, times[i]);
    return least;
}

/* Of a square, the rarest pair of a last type and one from so much above it on, or of one at most as
 * high. */
static uint64_t rarest_above(size_t types, const uint64_t (*times)[types], size_t above)
{
    uint64_t least = UINT64_MAX;
    for (size_t last = 0; last < types; last++)
        for (size_t type = last + above; type < types; type++)
            find_rarer(&least, times[last][type]);
    return least;
}

static uint64_t rarest_not_above(size_t types, const uint64_t (*times)[types])
{
    uint64_t least = UINT64_MAX;
    for (size_t last = 0; last < types; last++)
        find_rarer(&least, rarest(times[last], last + 1));
    return least;
}

/* Each answer that the questions can give, and laying and counts. */
static void print_answers_met(const struct drive *drive)
{
    enum { MOST_ANSWERS = 4 };
    static const struct {
        enum function function;
        size_t count;
        uint8_t answers[MOST_ANSWERS];
    } given[] = {
        {LAY_ELECTRONS, 2, {LPMAG_OK, LPMAG_NO_SUCH_PLACE}},
        {CELL, 3, {LPMAG_OK, LPMAG_NO_SUCH_PLACE, LPMAG_ABSENT}},
        {BIN_SAMPLES, 4, {2, 4, 32, LPMAG_NO_SUCH_BIN}},
        {ELECTRON_SAMPLE, 4, {LPMAG_OK, LPMAG_NO_SUCH_PLACE, LPMAG_ABSENT, LPMAG_SCALE_UNKNOWN}},
        {THREE_D, 3, {LPMAG_OK, LPMAG_NO_SUCH_PLACE, LPMAG_ABSENT}},
        {TOTAL, 3, {LPMAG_OK, LPMAG_NO_SUCH_PLACE, LPMAG_ABSENT}},
        {RATE, 3, {LPMAG_OK, LPMAG_NO_SUCH_PLACE, LPMAG_ABSENT}},
        {COUNT_RANGE, 2, {LPMAG_OK, LPMAG_NO_SUCH_PLACE}},
        {COUNT_SUM, 2, {LPMAG_OK, LPMAG_TOO_LARGE}},
        {MAJOR_WORD, 3, {LPMAG_OK, LPMAG_NO_SUCH_PLACE, LPMAG_ABSENT}},
        {MAJOR_SAMPLE, 3, {LPMAG_OK, LPMAG_NO_SUCH_PLACE, LPMAG_ABSENT}},
        {MAJOR_FIELD, 3, {LPMAG_OK, LPMAG_NO_SUCH_PLACE, LPMAG_ABSENT}},
        {SNAPSHOT_BYTE, 3, {LPMAG_OK, LPMAG_NO_SUCH_PLACE, LPMAG_ABSENT}},
        {SNAPSHOT_THREE_D, 3, {LPMAG_OK, LPMAG_NO_SUCH_PLACE, LPMAG_ABSENT}},
        {SNAPSHOT_PITCH, 3, {LPMAG_OK, LPMAG_NO_SUCH_PLACE, LPMAG_ABSENT}},
        {SNAPSHOT_TOTAL, 3, {LPMAG_OK, LPMAG_NO_SUCH_PLACE, LPMAG_ABSENT}},
        {SNAPSHOT_RATE, 3, {LPMAG_OK, LPMAG_NO_SUCH_PLACE, LPMAG_ABSENT}},
        {SNAPSHOT_ANGLE, 3, {LPMAG_OK, LPMAG_NO_SUCH_PLACE, LPMAG_ABSENT}},
    };
    for (size_t i = 0; i < sizeof given / sizeof given[0]; i++)
        for (size_t j = 0; j < given[i].count; j++) {
            print_text(function_name(given[i].function));
            print_met_with(" with answer ", given[i].answers[j],
                           drive->answers[given[i].function][given[i].answers[j]]);
        }
}

static void print_electrons_met(const struct drive *drive)
{
    print_met("frames laid, of the rarest type among 0 to 35", rarest(drive->laid, 36));
    print_met("accumulations laid whole", drive->accumulations);
    print_met("raw cells, of the rarest", rarest(drive->cells_given, 2988));
    print_met("raw cells absent, of the rarest", rarest(drive->cells_absent, 2988));
    print_met("samples as they are, of the rarest bin among 0 to 14", rarest(drive->samples_plain, 15));
    print_met("samples pre-scaled, of the rarest bin among 0 to 5", rarest(drive->samples_scaled, 6));
    print_met("samples pre-scaled, of the rarest bin among 7 and 8", rarest(drive->samples_scaled + 7, 2));
    print_met("sums past 64 bits in the low alone", drive->sums_past[true][false]);
    print_met("sums past 64 bits in the high alone", drive->sums_past[false][true]);
    print_met("sums past 64 bits in both", drive->sums_past[true][true]);
    print_met("anodes and phases, of the rarest angle among 0 to 87", rarest(drive->angles, 88));
    print_met("anodes and phases of no such bin", drive->angles[LPMAG_NO_SUCH_BIN]);
}

static uint64_t rarest_taken(const struct drive *drive)
{
    uint64_t least = UINT64_MAX;
    for (size_t type = 0; type < 36; type++)
        find_rarer(&least, rarest(drive->taken[type], 16));
    return least;
}

static const char *const call_names[CALLS] = {[BY_STEP] = "step", [BY_FEED] = "feed", [BY_FINISH] = "finish"};

/* A record that closes an accumulation is real-time and has no burst packet, and finish closes one
 * snapshot at most. */
static bool can_close(enum call call, bool accumulation, size_t snapshots)
{
    return call == BY_FINISH ? snapshots < MOST_CLOSED : !accumulation || snapshots == 0;
}

static void print_closed_met(const struct drive *drive)
{
    static const char *const by[CALLS] = {"records that close ", "feeds that close ", "finishes that close "};
    static const char *const what[2][2] = {{"", "an accumulation"},
                                           {"a major frame", "a major frame and an accumulation"}};
    static const char *const alone[MOST_CLOSED + 1] = {"nothing", "a snapshot alone", "two snapshots alone"};
    static const char *const beside[MOST_CLOSED + 1] = {" alone", " and a snapshot", " and two snapshots"};
    for (enum call call = 0; call < CALLS; call++)
        for (size_t major = 0; major < 2; major++)
            for (size_t accumulation = 0; accumulation < 2; accumulation++)
                for (size_t snapshots = 0; snapshots <= MOST_CLOSED; snapshots++) {
                    if (!can_close(call, accumulation == 1, snapshots))
                        continue;
                    print_text(by[call]);
                    print_met_of(what[major][accumulation],
                                 (major + accumulation == 0 ? alone : beside)[snapshots],
                                 drive->closed[call][major][accumulation][snapshots]);
                }
}

/* Of the burst packets that are none of a snapshot, with one open or not: the rarest, with bit 6 or
 * without. */
static uint64_t rarest_fill(const struct drive *drive, bool open, bool bit_6)
{
    uint64_t least = UINT64_MAX;
    for (size_t type = 56; type < TYPE_NUMBERS; type++)
        if (is_burst_type((uint8_t)type))
            find_rarer(&least, drive->fill_bits[type][open][bit_6]);
    return least;
}

static uint64_t rarest_burst(const uint64_t *times)
{
    uint64_t least = UINT64_MAX;
    for (uint32_t which = 0; which < BURST_TYPES; which++)
        find_rarer(&least, times[burst_type(which)]);
    return least;
}

static void print_bursts_met(const struct drive *drive)
{
    static const char *const where[TOGETHER] = {"in two frames, of the rarest types",
                                                "in one frame, of the rarest types"};
    static const char *const what[SINCE] = {
        [NOTHING_SINCE] = "packets that join, ",
        [CUT_SINCE] = "packets of a higher type after a cut, ",
        [OWN_BIT] = "packets of a higher type with bit 6, ",
        [BOTH_BITS] = "packets of a higher type with bit 6 after a cut, ",
    };
    print_met("half bursts taken, of the rarest type", rarest_burst(drive->bursts[false]));
    print_met("full bursts taken, of the rarest type", rarest_burst(drive->bursts[true]));
    for (enum together together = 0; together < TOGETHER; together++) {
        for (enum since since = 0; since < SINCE; since++) {
            if (together == IN_ONE_FRAME && (since == CUT_SINCE || since == BOTH_BITS))
                continue; /* nothing comes between the two packets of a frame */
            print_met_of(what[since], where[together],
                         rarest_above(PACKETS, drive->above[together][since], 1));
        }
        print_met_of("packets of a type not above the last, ", where[together],
                     rarest_not_above(PACKETS, drive->packets_not_above[together]));
    }
    print_met("packets with no snapshot open", drive->packets_alone);
    for (size_t open = 0; open < 2; open++)
        for (size_t bit_6 = 0; bit_6 < 2; bit_6++)
            print_met_of(open ? "packets of 56, 57 and 62 with a snapshot open"
                              : "packets of 56, 57 and 62 with none open",
                         bit_6 ? ", with bit 6, the rarest" : ", without bit 6, the rarest",
                         rarest_fill(drive, open == 1, bit_6 == 1));
    print_met("records after a missing count with a snapshot open", drive->missing_with_open);
    print_met("bytes of a snapshot, of the rarest place", rarest(drive->bytes_given, LPMAG_SNAPSHOT));
    print_met("bytes of a snapshot absent, of the rarest place", rarest(drive->bytes_absent, LPMAG_SNAPSHOT));
    for (size_t which = 0; which < 2; which++) {
        uint64_t least = UINT64_MAX;
        for (size_t range = 0; range < 8; range++)
            find_rarer(&least, drive->burst_ranges[range][which]);
        print_met_of(which == 0 ? "seconds of MAG in packet one" : "seconds of MAG in packet two",
                     ", of the rarest range", least);
        print_met_of(which == 0 ? "packets one" : "packets two", " that are no second of MAG",
                     drive->burst_ranges[LPMAG_NO_SUCH_PLACE][which]);
    }
}

static void print_joining_met(const struct drive *drive)
{
    static const char *const at[EDGES] = {
        [ONE_BELOW] = "frames with g at u - t - 2, of the rarest types",
        [LEAST] = "frames with g at u - t - 1, of the rarest types",
        [MOST] = "frames with g at 34 + (u - t), of the rarest types",
        [ONE_ABOVE] = "frames with g at 35 + (u - t), of the rarest types",
    };
    print_met("frames that open", drive->fates[LPMAG_OPENS]);
    print_met("frames that join", drive->fates[LPMAG_JOINS]);
    print_met("frames that do neither", drive->fates[LPMAG_NEITHER]);
    for (enum edge edge = 0; edge < EDGES; edge++)
        print_met(at[edge], rarest_above(36, drive->edges[edge], edge == ONE_BELOW ? 2 : 1));
    print_met("frames of a type not above the last, of the rarest types",
              rarest_not_above(36, drive->not_above));
    print_met("frames of a higher type that open after other frames", drive->past_others[LPMAG_OPENS]);
    print_met("frames that join after other frames", drive->past_others[LPMAG_JOINS]);
    print_met("other frames with no accumulation open", drive->others_counted[false]);
    print_met("other frames with one open", drive->others_counted[true]);
    print_met("real-time frames taken, of the rarest type and slot", rarest_taken(drive));
}

static void print_clock_met(const struct drive *drive)
{
    static const char *const ahead[JUMPS] = {
        [NEXT_COUNT] = "1",       [BEFORE_FARTHEST] = "8,388,606",
        [FARTHEST] = "8,388,607", [PAST_FARTHEST] = "8,388,608",
        [TWO_PAST] = "8,388,609", [ONE_LATE] = "2^24 - 1",
    };
    for (enum jump jump = 0; jump < JUMPS; jump++)
        for (size_t below = 0; below < 2; below++) {
            print_text("records ahead by ");
            print_met_of(ahead[jump], below ? ", the count below the last" : ", the count above the last",
                         drive->jumps[jump][below]);
        }
    print_met("steps that begin a turn", drive->turned[BY_STEP]);
    print_met("feeds that begin a turn", drive->turned[BY_FEED]);
    print_met("records refused with 12 that would pass the last turn", drive->late_past_turns);
}

static void print_broken_met(const struct drive *drive, enum call call)
{
    for (enum clause clause = 0; clause < CLAUSES; clause++) {
        if (clause == FIRST_COUNT_BELOW || clause == LAST_COUNT_BELOW || clause == SNAPSHOT_COUNT_BELOW)
            continue; /* never broken alone */
        print_text(call_names[call]);
        print_text(" with a state that breaks only \"");
        print_met_of(clause_name(clause), "\"", drive->broken[call][clause]);
    }
    for (enum lent_room room = 0; room < SIZED; room++) {
        print_text(call_names[call]);
        print_met_of(" with a wrong size of ", room_name(room), drive->wrong_sizes[call][room]);
    }
}

static void print_structs_met(const struct drive *drive, enum call call)
{
    const char *by = call_names[call];
    print_met_of(by, " with the fresh state", drive->fresh[call]);
    print_met_of(by, " with the rarest flag byte in the fresh state", rarest(drive->flags[call][true], 256));
    print_met_of(by, " with the rarest flag byte in another", rarest(drive->flags[call][false], 256));
    print_met_of(by, " with the rarest cut mark and no snapshot open", rarest(drive->cuts[call][false], 256));
    print_met_of(by, " with the rarest cut mark of an open snapshot", rarest(drive->cuts[call][true], 256));
    print_met_of(by, " with the rarest bit of the spare fields", rarest(drive->spares[call], SPARE_BITS));
    print_met_of(by, " with every field known and different", drive->structs[call]);
}

/* A record of feed has its length, so rule 2 is never met there, and rule 1 is feed's own
 * answer. */
static void print_fed_met(const struct drive *drive)
{
    static const char *const records[GIVEN] = {"no whole record", "one record", "many records"};
    print_met("feed with answer 0", drive->feeds[LPMAG_OK]);
    print_met("feed with answer 1", drive->feeds[1]);
    print_met("feeds of which the last record is accepted", drive->fed[LPMAG_OK]);
    for (unsigned number = 3; number < REFUSALS; number++) {
        if (number == 13)
            continue; /* no refusal's */
        print_met_with("feeds of which the last record is refused with ", number, drive->fed[number]);
    }
    for (enum given given = 0; given < GIVEN; given++) {
        print_met_of("feeds that take ", records[given], drive->fed_taken[given]);
        print_met_of("feeds that leave no part of a record and ", records[given],
                     drive->fed_left[false][given]);
        print_met_of("feeds that leave a part of a record and ", records[given],
                     drive->fed_left[true][given]);
        print_met_of("feeds with a wrong size and ", records[given], drive->fed_broken[false][given]);
        print_met_of("feeds with a broken state and ", records[given], drive->fed_broken[true][given]);
    }
    print_met("feeds of the rarest length up to three records and a byte",
              rarest(drive->fed_lengths, sizeof drive->fed_lengths / sizeof drive->fed_lengths[0]));
}

static void print_reader_met(const struct drive *drive)
{
    for (unsigned answer = 0; answer < REFUSALS; answer++) {
        if (answer == 13)
            continue; /* no refusal's */
        print_met_with("step with answer ", answer, drive->steps[answer]);
    }
    print_met("finish with answer 0", drive->finishes[LPMAG_OK]);
    print_met("finish with answer 1", drive->finishes[1]);
    print_fed_met(drive);
    print_closed_met(drive);
    print_joining_met(drive);
    print_bursts_met(drive);
    print_clock_met(drive);
    print_met("states at random that keep the list", drive->passing);
    for (enum call call = 0; call < CALLS; call++) {
        print_broken_met(drive, call);
        print_structs_met(drive, call);
    }
    print_met("streams sent in order and kept in more than one turn", drive->sent_turned);
    print_met("streams of which the first turn is lost", drive->sent_late);
    print_met("streams that end in the last turn", drive->sent_to_the_end);
    print_met("records kept of those sent in order", drive->sent_kept);
    print_met("real-time ones of them", drive->sent_real_time);
    print_met("records kept with as many lost before them as can be", drive->sent_farthest);
    print_met("accumulations handed out whole", drive->accumulations_whole);
    print_met("accumulations handed out in part", drive->accumulations_part);
    print_met("accumulations torn", drive->accumulations_torn);
    print_met("accumulations handed out with frames of two turns", drive->accumulations_across);
    print_met("records kept that have MAG", drive->sent_with_mag);
    print_met("packets of 36 to 55 kept", drive->sent_packets);
    print_met("snapshots handed out whole", drive->snapshots_whole);
    print_met("snapshots handed out in part", drive->snapshots_part);
    print_met("snapshots handed out with packets of two turns", drive->snapshots_across);
    print_met("snapshots handed out with the first count of another", drive->snapshots_of_a_frame);
    print_met("major frames handed out whole", drive->majors_whole);
    print_met("major frames handed out in part", drive->majors_part);
}

/* Each second type byte is met, and passes or is refused as 02's request 2 says of its type. */
static uint64_t rarest_second(const struct drive *drive)
{
    uint64_t least = UINT64_MAX;
    for (size_t code = 0; code < 256; code++)
        find_rarer(&least, drive->second_codes[is_burst_type(code % 64)][code]);
    return least;
}

void print_all_met(const struct drive *drive)
{
    for (enum function function = 0; function < FUNCTIONS; function++)
        print_met_of("equal calls of ", function_name(function), drive->calls[function]);
    print_met("rooms that had to stay as found", drive->kept_rooms);
    print_met("ranges lent that had to stay as found", drive->kept_ranges);
    print_met("rooms of another size, refusal 1", drive->refusals[1]);
    print_met("records", drive->records);
    print_met("records that pass", drive->refusals[0]);
    for (unsigned number = 2; number <= 11; number++)
        print_met_with("records with refusal ", number, drive->refusals[number]);
    print_met("real-time packets, of the rarest type among 0 to 35", rarest(drive->kinds, 36));
    print_met("half bursts", drive->kinds[LPMAG_HALF_BURST]);
    print_met("full bursts", drive->kinds[LPMAG_FULL_BURST]);
    print_met("other packets", drive->kinds[LPMAG_OTHER]);
    print_met("undefined packets", drive->kinds[LPMAG_UNDEFINED]);
    print_met("full bursts of the rarest second type byte", rarest_second(drive));
    print_met("words of the rarest refusal among 1 to 12", rarest(drive->words + 1, 12));
    print_met("words of refusal 14", drive->words[14]);
    print_met("words of another number", drive->words[0]);
    print_met("words in a room that is too small", drive->words_not_given);
    print_met("MAG bytes, of the rarest range among 0 to 7", rarest(drive->ranges, 8));
    print_met("MAG bytes or rooms of no such place", drive->ranges[LPMAG_NO_SUCH_PLACE]);
    print_answers_met(drive);
    print_electrons_met(drive);
    print_reader_met(drive);
}
