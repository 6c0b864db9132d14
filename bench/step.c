/* How long a record takes: lpmag_step and lpmag_feed of include/lpmag.h and the same in C,
 * by turns over the same stream of records. */
#include "step_c.h"
#include "timing.h"

#include "../compare/base/random.h"
#include "../compare/base/text.h"
#include "../compare/input/generate.h"
#include "../compare/second/reader.h"

#include <stdbool.h>
#include <system.h>

/* The stream is a ring of different records gone round many times, with counts that
 * go on rising: all of it at once would be too large for the memory. The clock restarts at 0
 * in its first round. */
enum { TYPES = 36, RING = 20000, ROUNDS = 50, REPEATS = 5, FIRST_COUNT = (1 << 24) - RING / 2 };

static uint8_t records[RING][LPMAG_RECORD];
static uint32_t offsets[RING]; /* of the counts in a round */
static uint32_t span;          /* the counts of a round */

/* ---- the stream ------------------------------------------------------- */

/* The next packet of a burst that is played back: the 20 of a snapshot, a second of MAG, and the next
 * snapshot. */
static uint8_t next_packet(uint8_t packet)
{
    return packet == 56 ? 36 : (uint8_t)(packet + 1);
}

/* A frame that isn't real-time: a memory dump; or a half burst or a full one. */
static struct content make_other(struct random *random, bool bursts, uint8_t *packet)
{
    if (!bursts)
        return generate_content_of(random, 0, 63);
    uint8_t code = *packet = next_packet(*packet);
    if (random_once_in(random, 2))
        return generate_content_with(random, 0, code, 0);
    *packet = next_packet(code);
    return generate_content_with(random, 0, code | TOP_BIT, *packet);
}

/* Real-time types in order, round and round; one record of so many is another frame, and
 * once in 500 up to 40 are lost. A round ends with type 35, lost if need be, so that
 * the next can follow. */
static void make_stream(bool bursts, uint32_t others_once_in)
{
    struct random random = {1998};
    uint32_t frames = 0; /* real-time */
    uint32_t lost = 0;
    uint8_t packet = 35; /* the last one of a burst */
    size_t made = 0;
    for (span = 0; made < RING || frames % TYPES != 0; span++) {
        bool other = random_once_in(&random, others_once_in);
        uint8_t type = (uint8_t)(frames % TYPES);
        frames += !other;
        if (lost == 0 && random_once_in(&random, 500))
            lost = random_between(&random, 1, 40);
        if (lost > 0 || made == RING) {
            lost -= lost > 0;
            continue;
        }
        struct content content =
            other ? make_other(&random, bursts, &packet) : generate_content_of(&random, 0, type);
        generate_record(&random, &content, records[made]);
        offsets[made++] = span;
    }
}

/* Outside of what is timed. */
static void set_counts(uint32_t round)
{
    for (size_t i = 0; i < RING; i++) {
        uint32_t count = FIRST_COUNT + round * span + offsets[i];
        records[i][6] = (uint8_t)(count >> 16);
        records[i][7] = (uint8_t)(count >> 8);
        records[i][8] = (uint8_t)count;
    }
}

/* ---- what is lent ----------------------------------------------------- */

/* To one implementation. */
struct lent {
    struct lpmag_state state;
    struct lpmag_report report;
    struct lpmag_fed fed;
    _Alignas(64) uint8_t open_cells[LPMAG_CELLS];
    _Alignas(64) uint8_t finished_cells[LPMAG_CELLS];
    _Alignas(64) int16_t open_samples[LPMAG_FRAME];
    _Alignas(64) int16_t finished_samples[LPMAG_FRAME];
    _Alignas(64) uint8_t open_snapshot[LPMAG_SNAPSHOT];
    _Alignas(64) uint8_t first_snapshot[LPMAG_SNAPSHOT];
    _Alignas(64) uint8_t second_snapshot[LPMAG_SNAPSHOT];
};

typedef uint8_t step(struct lpmag_state *, struct lpmag_report *, uint8_t *, size_t, uint8_t *, size_t,
                     int16_t *, size_t, int16_t *, size_t, uint8_t *, size_t, uint8_t *, size_t, uint8_t *,
                     size_t, const uint8_t *, size_t);
typedef uint8_t feed(struct lpmag_state *, struct lpmag_fed *, uint8_t *, size_t, uint8_t *, size_t,
                     int16_t *, size_t, int16_t *, size_t, uint8_t *, size_t, uint8_t *, size_t, uint8_t *,
                     size_t, const uint8_t *, size_t);

struct functions {
    step *step;
    feed *feed;
};

static const struct functions first = {lpmag_step, lpmag_feed};
static const struct functions in_c = {step_c, feed_c};

/* Its structs are those of include/lpmag.h under names of their own. */
static const struct functions second = {(step *)second_step, (feed *)second_feed};

static uint8_t call_step(const struct functions *of, struct lent *lent, const uint8_t *record, size_t length)
{
    return of->step(&lent->state, &lent->report, lent->open_cells, LPMAG_CELLS, lent->finished_cells,
                    LPMAG_CELLS, lent->open_samples, LPMAG_FRAME, lent->finished_samples, LPMAG_FRAME,
                    lent->open_snapshot, LPMAG_SNAPSHOT, lent->first_snapshot, LPMAG_SNAPSHOT,
                    lent->second_snapshot, LPMAG_SNAPSHOT, record, length);
}

static uint8_t call_feed(const struct functions *of, struct lent *lent, const uint8_t *bytes, size_t length)
{
    return of->feed(&lent->state, &lent->fed, lent->open_cells, LPMAG_CELLS, lent->finished_cells,
                    LPMAG_CELLS, lent->open_samples, LPMAG_FRAME, lent->finished_samples, LPMAG_FRAME,
                    lent->open_snapshot, LPMAG_SNAPSHOT, lent->first_snapshot, LPMAG_SNAPSHOT,
                    lent->second_snapshot, LPMAG_SNAPSHOT, bytes, length);
}

/* ---- that all do the same --------------------------------------------- */

/* What is lent to each of the three. */
struct all {
    struct lent first, in_c, second;
};

static void expect_same(const void *one, const void *other, size_t length)
{
    if (memcmp(one, other, length) != 0)
        fail(1, "bench: the states, reports or buffers aren't equal");
}

static void expect_same_lent(const struct lent *one, const struct lent *other)
{
    expect_same(&one->state, &other->state, sizeof one->state);
    expect_same(&one->report, &other->report, sizeof one->report);
    expect_same(&one->fed, &other->fed, sizeof one->fed);
    expect_same(one->open_cells, other->open_cells, sizeof one->open_cells);
    expect_same(one->finished_cells, other->finished_cells, sizeof one->finished_cells);
    expect_same(one->open_samples, other->open_samples, sizeof one->open_samples);
    expect_same(one->finished_samples, other->finished_samples, sizeof one->finished_samples);
    expect_same(one->open_snapshot, other->open_snapshot, sizeof one->open_snapshot);
    expect_same(one->first_snapshot, other->first_snapshot, sizeof one->first_snapshot);
    expect_same(one->second_snapshot, other->second_snapshot, sizeof one->second_snapshot);
}

static void expect_all_same(const struct all *all)
{
    expect_same_lent(&all->first, &all->second);
    expect_same_lent(&all->in_c, &all->second);
}

static void expect_step(struct all *all, const uint8_t *record, size_t length, uint8_t expected)
{
    if (call_step(&first, &all->first, record, length) != expected ||
        call_step(&in_c, &all->in_c, record, length) != expected ||
        call_step(&second, &all->second, record, length) != expected)
        fail(1, "bench: a record has another answer than it has to");
    expect_all_same(all);
}

static void expect_feed(struct all *all, const uint8_t *bytes, size_t length, uint8_t expected)
{
    if (call_feed(&first, &all->first, bytes, length) != expected ||
        call_feed(&in_c, &all->in_c, bytes, length) != expected ||
        call_feed(&second, &all->second, bytes, length) != expected)
        fail(1, "bench: a feed has another answer than it has to");
    expect_all_same(all);
}

/* Some records by steps; each is also given cut short and a second time. */
static void expect_equal_steps(struct all *all, size_t count)
{
    for (size_t i = 0; i < count; i++) {
        expect_step(all, records[i], LPMAG_RECORD - 1, 2);
        expect_step(all, records[i], LPMAG_RECORD, LPMAG_OK);
        expect_step(all, records[i], LPMAG_RECORD, 12);
    }
}

/* The same records by feeds of any length, none and half a record among them; sometimes the last one
 * taken is given once more, and is refused. */
static void expect_equal_feeds(struct all *all, struct random *random, size_t count)
{
    const uint8_t *bytes = records[0];
    size_t at = 0;
    while (at < count * LPMAG_RECORD) {
        size_t left = count * LPMAG_RECORD - at;
        size_t length = random_below(random, 40 * LPMAG_RECORD);
        expect_feed(all, bytes + at, length < left ? length : left, LPMAG_OK);
        at += all->first.fed.taken;
        if (at > 0 && random_once_in(random, 10))
            at -= LPMAG_RECORD;
    }
}

static void set_spares(struct all *all, uint8_t byte)
{
    all->first.state.spare8 = byte;
    all->in_c.state.spare8 = byte;
    all->second.state.spare8 = byte;
}

/* What is no state is refused, where there is a record and where there is none. */
static void expect_rule_1(struct all *all)
{
    set_spares(all, 1);
    expect_step(all, records[0], LPMAG_RECORD, 1);
    expect_feed(all, records[0], LPMAG_RECORD, 1);
    expect_feed(all, records[0], 0, 1);
    set_spares(all, 0);
}

/* A round and the start of the next, by steps and by feeds: both leave the same. */
static void expect_equal(void)
{
    static struct all by_steps, by_feeds;
    struct random random = {1999};
    memset(&by_steps, 0, sizeof by_steps);
    memset(&by_feeds, 0, sizeof by_feeds);
    for (uint32_t round = 0; round < 2; round++) {
        size_t count = round == 0 ? RING : 1000;
        set_counts(round);
        expect_rule_1(&by_steps);
        expect_equal_steps(&by_steps, count);
        expect_equal_feeds(&by_feeds, &random, count);
        expect_same(&by_steps.first.state, &by_feeds.first.state, sizeof by_steps.first.state);
    }
}

/* ---- how long they take ----------------------------------------------- */

/* The records of a round, taken by one implementation. */
typedef void taking(const struct functions *, struct lent *);

static void take_by_steps(const struct functions *of, struct lent *lent)
{
    unsigned refused = 0;
    for (size_t i = 0; i < RING; i++)
        refused |= call_step(of, lent, records[i], LPMAG_RECORD);
    if (refused != 0)
        fail(1, "bench: a record was refused");
}

static void take_by_feeds(const struct functions *of, struct lent *lent)
{
    for (size_t at = 0; at < sizeof records; at += lent->fed.taken)
        if (call_feed(of, lent, records[0] + at, sizeof records - at) != LPMAG_OK ||
            lent->fed.answer != LPMAG_OK || lent->fed.taken == 0)
            fail(1, "bench: a record was refused");
}

static uint64_t time_round(taking *take, const struct functions *of, struct lent *lent)
{
    uint64_t start = nanoseconds();
    take(of, lent);
    return nanoseconds() - start;
}

/* The whole stream from the fresh state, each round by one and then by the other,
 * each as often before the other as after it. */
static void time_stream(taking *take, struct timings *first_times, struct timings *c_times)
{
    static struct lent to_first, to_c;
    memset(&to_first, 0, sizeof to_first);
    memset(&to_c, 0, sizeof to_c);
    for (uint32_t round = 0; round < ROUNDS; round++) {
        set_counts(round);
        if (round % 2 == 0)
            add_timing(first_times, time_round(take, &first, &to_first));
        add_timing(c_times, time_round(take, &in_c, &to_c));
        if (round % 2 != 0)
            add_timing(first_times, time_round(take, &first, &to_first));
    }
    expect_same_lent(&to_first, &to_c);
}

static void measure(const char *title, const char *others, taking *take)
{
    struct timings first_times = {0}, c_times = {0};
    for (unsigned i = 0; i < REPEATS; i++)
        time_stream(take, &first_times, &c_times);
    sort_timings(&first_times);
    sort_timings(&c_times);

    print_text(title);
    print_number(RING * ROUNDS);
    print_text(" records with losses and ");
    print_text(others);
    print_text(", in timings of ");
    print_number(RING);
    print_text(", ");
    print_number(REPEATS);
    print_text(" times\n");
    print_times("first: ", &first_times, RING, "record");
    print_rates("first: ", &first_times, RING, "records");
    print_times("C: ", &c_times, RING, "record");
    print_rates("C: ", &c_times, RING, "records");
    print_ratios("first / C: ", &first_times, &c_times);
}

static void measure_both(const char *others)
{
    expect_equal();
    measure("step, ", others, take_by_steps);
    measure("feed, many records a call, ", others, take_by_feeds);
}

int main(void)
{
    make_stream(false, 50);
    measure_both("memory dumps");
    make_stream(true, 4);
    measure_both("bursts");
    print_flush();
    return 0;
}
