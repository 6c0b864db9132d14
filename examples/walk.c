/* Walks a merged file and prints some of what the reader hands out: how the library is
 * used from C, over lpmag_reader.h.
 *   cc -Iinclude examples/walk.c target/staticlib/liblpmag.a -o walk
 *   ./walk FILE [N]
 * It prints the N-th major frame, the N-th accumulation and the N-th snapshot of a burst handed out,
 * the N-th second of MAG in a burst, the first if no N is given, and last how many records were
 * refused, and by which rule. */
#include <inttypes.h>
#include <stdint.h>
#include <stdio.h>
#include <stdlib.h>

#include "lpmag_reader.h"

/* What is asked of an accumulation and of a snapshot: one energy bin and one 3D energy step. */
enum { BIN = 7, STEP = 0 };
enum { RULES = 14, RECORDS_OF_A_READ = 256 };

struct walk {
    struct lpmag_reader reader;
    uint64_t wanted;                /* N */
    uint64_t majors, accumulations; /* handed out so far */
    uint64_t snapshots, seconds;    /* likewise */
    uint64_t records;               /* taken so far, */
    uint64_t refused[RULES + 1];    /* and of them refused, by rule */
};

static _Noreturn void give_up(const char *sentence)
{
    fflush(stdout); /* what was printed comes before the sentence */
    fprintf(stderr, "walk: %s\n", sentence);
    exit(1);
}

/* The numbers of the bits that are set. */
static void print_marks(const char *title, uint64_t marks)
{
    printf("%s:", title);
    for (unsigned i = 0; i < 64; i++)
        if (marks >> i & 1)
            printf(" %u", i);
    printf("\n");
}

/* ---- an accumulation -------------------------------------------------- */

/* The counts a question was answered with, or why there are none. They are a range,
 * low and high, since the instrument cut bits off. */
static void print_counts(uint8_t answer, const uint64_t range[2])
{
    char counts[48]; /* two numbers of up to 20 digits */
    const char *text = counts;
    if (answer == LPMAG_OK)
        snprintf(counts, sizeof counts, "%" PRIu64 "-%" PRIu64, range[0], range[1]);
    else if (answer == LPMAG_ABSENT)
        text = "absent"; /* the frame that carries it isn't held */
    else if (answer == LPMAG_SCALE_UNKNOWN)
        text = "scale unknown"; /* the frame that says whether it was pre-scaled isn't held */
    else
        give_up("there are no such counts");
    printf(" %15s", text);
}

static void print_bin(const uint8_t *cells, uint64_t held)
{
    printf("\nenergy bin %d, counts by pitch angle, a column for each sample", BIN);
    for (size_t angle = 0; angle < LPMAG_PITCH_ANGLES; angle++) {
        printf("\n%6zu", angle);
        for (size_t number = 0; number < lpmag_bin_samples(BIN); number++) {
            uint64_t range[2] = {0};
            print_counts(
                lpmag_electron_sample(cells, LPMAG_CELLS, held, BIN, number, angle, &range[0], &range[1]),
                range);
        }
    }
}

static void print_step(const uint8_t *cells, uint64_t held)
{
    printf("\n3D energy step %d, counts by angle, four a line", STEP);
    for (size_t angle = 0; angle < LPMAG_ANGLES; angle++) {
        uint64_t range[2] = {0};
        if (angle % 4 == 0)
            printf("\n%6zu", angle);
        print_counts(lpmag_three_d(cells, LPMAG_CELLS, held, STEP, angle, &range[0], &range[1]), range);
    }
    printf("\n");
}

static void print_accumulation(const uint8_t *cells, uint64_t first_count, uint64_t held)
{
    uint64_t range[2] = {0};
    printf("accumulation, first count %" PRIu64 "\n", first_count);
    print_marks("types held", held);
    printf("Total ");
    print_counts(lpmag_total(cells, LPMAG_CELLS, held, &range[0], &range[1]), range);
    printf("\nRate  ");
    print_counts(lpmag_rate(cells, LPMAG_CELLS, held, &range[0], &range[1]), range);
    print_bin(cells, held);
    print_step(cells, held);
}

/* ---- a burst ---------------------------------------------------------- */

/* The two directions of the magnetic field that sorted the electrons. */
static void print_directions(const uint8_t *snapshot, uint32_t held)
{
    static const char *const names[LPMAG_MAG_ANGLES] = {"MagTh", "MagPhi", "MagTh", "MagPhi"};
    printf("\nmagnetic angles in degrees:");
    for (size_t number = 0; number < LPMAG_MAG_ANGLES; number++) {
        uint8_t angle = 0;
        if (lpmag_snapshot_angle(snapshot, LPMAG_SNAPSHOT, held, number, &angle) == LPMAG_OK)
            printf(" %s %.10g", names[number], angle * 360.0 / 256);
        else
            printf(" %s absent", names[number]);
    }
}

static void print_snapshot(const uint8_t *snapshot, uint64_t first_count, uint32_t held)
{
    uint64_t range[2] = {0};
    printf("snapshot, first count %" PRIu64 "\n", first_count);
    print_marks("packet types held", (uint64_t)held << 36); /* the first packet is of type 36 */
    printf("Total ");
    print_counts(lpmag_snapshot_total(snapshot, LPMAG_SNAPSHOT, held, &range[0], &range[1]), range);
    printf("\nRate  ");
    print_counts(lpmag_snapshot_rate(snapshot, LPMAG_SNAPSHOT, held, &range[0], &range[1]), range);
    print_directions(snapshot, held);

    printf("\nenergy %d, counts by pitch angle, four a line", BIN);
    for (size_t angle = 0; angle < LPMAG_PITCH_ANGLES; angle++) {
        if (angle % 4 == 0)
            printf("\n%6zu", angle);
        print_counts(lpmag_snapshot_pitch(snapshot, LPMAG_SNAPSHOT, held, BIN, angle, &range[0], &range[1]),
                     range);
    }
    printf("\n3D energy step %d, counts by angle, four a line", STEP);
    for (size_t angle = 0; angle < LPMAG_ANGLES; angle++) {
        if (angle % 4 == 0)
            printf("\n%6zu", angle);
        print_counts(
            lpmag_snapshot_three_d(snapshot, LPMAG_SNAPSHOT, held, STEP, angle, &range[0], &range[1]), range);
    }
    printf("\n");
}

/* A burst packet that is a second of MAG: 18 vectors. */
static void print_second(uint32_t count, uint8_t range, const int16_t *samples)
{
    printf("second of MAG in a burst, of the record with count %" PRIu32 "\n", count);
    printf("nominal field in nT, range %d: x, y, z", range);
    for (size_t number = 0; number < LPMAG_SAMPLES; number++) {
        float field = 0;
        if (lpmag_field(samples[number], range, &field) != LPMAG_OK)
            give_up("there is no such field");
        if (number % 3 == 0)
            printf("\n%6zu", number / 3);
        printf(" %15.10g", field);
    }
    printf("\n");
}

/* ---- a major frame ---------------------------------------------------- */

static void print_words(const struct lpmag_major *major)
{
    printf("subcom words by slot:");
    for (size_t slot = 0; slot < LPMAG_SLOTS; slot++) {
        uint16_t word = 0;
        uint8_t answer = lpmag_major_word(major, slot, &word);
        if (answer == LPMAG_OK)
            printf(" %" PRIu16, word);
        else if (answer == LPMAG_ABSENT)
            printf(" absent");
        else
            give_up("there is no such subcom word");
    }
    printf("\n");
}

/* The 18 vectors of a slot that is held with MAG. */
static void print_field(const struct lpmag_major *major, const int16_t *samples, size_t slot)
{
    printf("nominal field in nT of slot %zu, range %d: x, y, z", slot, major->ranges[slot]);
    for (size_t number = 0; number < LPMAG_SAMPLES; number++) {
        float field = 0;
        if (lpmag_major_field(major, samples, LPMAG_FRAME, slot, number, &field) != LPMAG_OK)
            give_up("there is no such field");
        if (number % 3 == 0)
            printf("\n%6zu", number / 3);
        printf(" %15.10g", field); /* all digits, at every range */
    }
    printf("\n");
}

static void print_major(const struct lpmag_major *major, const int16_t *samples)
{
    size_t slot = 0;
    printf("major frame, number %" PRIu64 "\n", major->number);
    print_marks("slots held", major->slots);
    print_marks("slots held with MAG", major->mag_slots);
    print_words(major);
    while (slot < LPMAG_SLOTS && (major->mag_slots >> slot & 1) == 0)
        slot++;
    if (slot < LPMAG_SLOTS)
        print_field(major, samples, slot);
}

/* ---- the walk --------------------------------------------------------- */

/* What was closed stays in the finished buffers until the next is closed into them. */
static void take(struct walk *walk, const struct lpmag_closed *closed)
{
    const struct lpmag_reader *reader = &walk->reader;
    if (closed->major_closed && ++walk->majors == walk->wanted)
        print_major(&closed->major, reader->finished_samples);
    if (closed->accumulation_closed && ++walk->accumulations == walk->wanted)
        print_accumulation(reader->finished_cells, closed->accumulation_first, closed->accumulation_held);
    if (closed->first_snapshot.closed && ++walk->snapshots == walk->wanted)
        print_snapshot(reader->first_snapshot, closed->first_snapshot.first, closed->first_snapshot.held);
    if (closed->second_snapshot.closed && ++walk->snapshots == walk->wanted) /* a frame may close two */
        print_snapshot(reader->second_snapshot, closed->second_snapshot.first, closed->second_snapshot.held);
}

/* A record has no burst packet, one or two; which of them are seconds of MAG the answer tells. */
static void take_seconds(struct walk *walk, const uint8_t *record)
{
    for (uint8_t which = 0; which < 2; which++) {
        int16_t samples[LPMAG_SAMPLES] = {0};
        struct lpmag_fields fields = {0};
        uint8_t range = lpmag_burst_samples(record, LPMAG_RECORD, which, samples, LPMAG_SAMPLES);
        if (range != LPMAG_NO_SUCH_PLACE && ++walk->seconds == walk->wanted &&
            lpmag_fields(&fields, record, LPMAG_RECORD) == LPMAG_OK)
            print_second(fields.count, range, samples);
    }
}

static void count(struct walk *walk, uint64_t records, uint8_t answer)
{
    walk->records += records;
    if (answer != LPMAG_OK)
        walk->refused[answer]++;
}

static void expect_ok(uint8_t answer)
{
    if (answer != LPMAG_OK)
        give_up("the state or a buffer isn't what the last call left");
}

/* The bytes of the records that a call accepted: all that it took, but for a last one refused. */
static size_t accepted(const struct lpmag_fed *fed)
{
    return fed->answer == LPMAG_OK ? fed->taken : fed->taken - LPMAG_RECORD;
}

/* Whole records, and maybe a short one after them. Each call takes records up to one that is refused or
 * closes something: all before that one were accepted. */
static void walk_records(struct walk *walk, const uint8_t *bytes, size_t length)
{
    struct lpmag_reader *reader = &walk->reader;
    do {
        expect_ok(lpmag_reader_feed(reader, bytes, length));
        for (size_t at = 0; at < accepted(&reader->fed); at += LPMAG_RECORD)
            take_seconds(walk, bytes + at);
        bytes += reader->fed.taken;
        length -= reader->fed.taken;
        count(walk, reader->fed.taken / LPMAG_RECORD, reader->fed.answer);
        take(walk, &reader->fed.closed);
    } while (reader->fed.taken > 0);
    if (length > 0)
        count(walk, 1, lpmag_reader_step(reader, bytes, length));
}

static void walk_file(struct walk *walk, FILE *file)
{
    static uint8_t bytes[RECORDS_OF_A_READ * LPMAG_RECORD];
    size_t length;
    lpmag_reader_init(&walk->reader);
    while ((length = fread(bytes, 1, sizeof bytes, file)) > 0) /* less than it asks for at the end alone */
        walk_records(walk, bytes, length);
    if (ferror(file))
        give_up("the file can't be read");
    expect_ok(lpmag_reader_finish(&walk->reader));
    take(walk, &walk->reader.closed);
}

static void print_refused(const struct walk *walk)
{
    uint64_t refused = 0;
    uint8_t words[LPMAG_WORDS] = {0};
    for (uint8_t rule = 1; rule <= RULES; rule++) {
        refused += walk->refused[rule];
        if (walk->refused[rule] > 0 && lpmag_refusal_words(rule, words, sizeof words) > 0)
            printf("refused by rule %d, %s: %" PRIu64 "\n", rule, words, walk->refused[rule]);
    }
    printf("refused: %" PRIu64 " of %" PRIu64 " records\n", refused, walk->records);
}

int main(int argc, char **argv)
{
    static struct walk walk;
    char *end = "";
    walk.wanted = argc == 3 ? strtoul(argv[2], &end, 10) : 1;
    if (argc < 2 || argc > 3 || walk.wanted == 0 || *end != '\0' || (argc == 3 && argv[2][0] == '-'))
        give_up("usage: walk FILE [N], N a whole number from 1");
    FILE *file = fopen(argv[1], "rb");
    if (file == NULL)
        give_up("the file can't be opened");
    walk_file(&walk, file);
    fclose(file);

    print_refused(&walk);
    if (walk.accumulations < walk.wanted)
        give_up("no accumulation was handed out, or fewer than N");
    if (walk.majors < walk.wanted)
        give_up("no major frame was handed out, or fewer than N");
    if (fflush(stdout) != 0 || ferror(stdout))
        give_up("what was found can't be written");
    return 0;
}
