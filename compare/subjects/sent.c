/* The reader on records that were sent in order, of which some were lost or
 * spoiled on the way. What it hands out is held against what was sent alone: every
 * real-time frame left unspoiled has each of its 83 science bytes in exactly one
 * cell, its own, and no accumulation holds bytes of two that were sent; every burst packet of 36 to
 * 55 left unspoiled stands in exactly one snapshot, and with its neighbours as 02's rule says. */
#include "driver/calls.h"
#include "driver/electrons.h"
#include "driver/streams.h"
#include "subjects.h"

#include <system.h>

enum { MOST_SENT = 1500, NONE = MOST_SENT };

/* Like random_once_in, but never for NEVER. */
enum { NEVER = 0 };
static bool once_in(struct random *random, uint32_t times)
{
    return times != NEVER && random_once_in(random, times);
}

/* ---- what is sent ----------------------------------------------------- */

/* What becomes of a record on the way. */
enum fate { KEPT, LOST, SPOILED };

struct sent {
    struct input input;
    bool real_time;
    bool mag;      /* it has some */
    uint64_t at;   /* counted on from the first record's own count, past 2^24 too */
    uint64_t rank; /* of the next real-time frame, this one if it is: its type and 36 times its round */
    enum fate fate;
    uint64_t lost_before; /* counts right before it, of which there is no record here */
    bool finished;        /* finish is called after it */
    unsigned in_cells;    /* the accumulations handed out that hold it */
    size_t accumulation;  /* the last of these */
    unsigned in_slots;    /* the major frames handed out that hold it */
};

/* A burst packet of a record that was kept; those of 36 to 55 are handed out in the snapshot of that
 * number, from 1 on. */
struct held_packet {
    struct packet packet;
    const struct sent *sent;
    size_t snapshot;
};

struct stream {
    size_t length;
    struct sent sent[MOST_SENT];
    struct lpmag_state before; /* the reader's */
    uint64_t offset;           /* what full counts are more than `at`, modulo 2^64 */
    size_t accumulations;      /* handed out so far */
    size_t cells;              /* filled in them */
    size_t slots;              /* held in the major frames handed out */
    size_t samples;            /* filled in them */
    size_t packets;            /* of the records kept, in their order */
    struct held_packet packet[MOST_PACKETS * MOST_SENT];
    size_t snapshots;        /* handed out so far */
    size_t packets_out;      /* the packets up to the last one handed out in them */
    size_t bytes;            /* filled in them */
    uint64_t snapshot_first; /* the first count of the last one */
};

/* So many of a hundred records are other frames. */
static void make_sent(struct random *random, struct stream *stream, uint32_t others)
{
    stream->length = random_between(random, 1, MOST_SENT);
    for (size_t i = 0; i < stream->length; i++)
        stream->sent[i] = (struct sent){.real_time = random_below(random, 100) >= others};
}

/* Losses begin once in so many records and last from one length to another. */
struct losses {
    uint32_t once_in;
    uint32_t shortest;
    uint32_t longest;
};

static void lose(struct random *random, struct stream *stream, struct losses losses, bool spoiled)
{
    uint32_t left = 0;
    for (size_t i = 0; i < stream->length; i++) {
        if (left == 0 && once_in(random, losses.once_in))
            left = random_between(random, losses.shortest, losses.longest);
        if (left == 0)
            continue;
        left--;
        stream->sent[i].fate = spoiled || random_once_in(random, 4) ? SPOILED : LOST;
    }
}

/* All up to a record, too. */
static void lose_beginning(struct random *random, struct stream *stream)
{
    uint32_t lost = random_below(random, (uint32_t)stream->length);
    for (size_t i = 0; i < lost; i++)
        stream->sent[i].fate = LOST;
}

/* The records from one on that aren't kept, up to the next one that is. */
static uint64_t not_kept_from(const struct stream *stream, size_t which)
{
    uint64_t row = 0;
    for (size_t i = which; i < stream->length && stream->sent[i].fate != KEPT; i++)
        row++;
    return row;
}

/* Now and then very many in a row, of which there is no record here: with those beside them
 * "fewer than 8,388,607 counts in a row go unaccepted" (02, request 1). */
static void lose_far(struct random *random, struct stream *stream, uint32_t times)
{
    uint64_t row = 0; /* lost since the last record kept */
    for (size_t i = 0; i < stream->length; i++) {
        struct sent *sent = &stream->sent[i];
        if (once_in(random, times)) {
            uint64_t most = AHEAD - 1 - row - not_kept_from(stream, i);
            sent->lost_before = random_once_in(random, 2) ? most : random_to(random, most);
        }
        row = sent->fate == KEPT ? 0 : row + sent->lost_before + 1;
    }
}

/* ---- counts and types ------------------------------------------------- */

/* Often the first count of the next turn is among the records. */
static uint64_t first_sent(struct random *random, const struct stream *stream)
{
    switch (random_below(random, 4)) {
    case 0:
        return 0;
    case 1:
    case 2:
        return ROUND - random_between(random, 1, (uint32_t)stream->length);
    default:
        return random_to(random, ROUND - 1);
    }
}

/* How the frames that aren't real-time come: as they are played back, each packet after the one before
 * it, from a marker with bit 6 on; bursts that mostly go on; any. */
enum playback { PLAYED_BACK, MOSTLY, ANY_OTHERS, PLAYBACKS };

/* The code of the packet after that one. Now and then a second of MAG comes between, as an even one,
 * or a marker; after the last one a marker, or the next snapshot. */
static uint8_t played_code(struct random *random, uint8_t packet)
{
    if (packet < 36 || packet > 54)
        return packet < 36 || random_once_in(random, 2) ? BIT_6 | 57 : 36;
    return random_once_in(random, 12) ? (uint8_t)random_between(random, 56, 57) : (uint8_t)(packet + 1);
}

/* The type of the last packet of a snapshot, when one more has come; from a marker on it is the first
 * of all that is next. */
static uint8_t packet_after(uint8_t packet, uint8_t code)
{
    return code == (BIT_6 | 57) ? 55 : code % 64 <= 55 ? code % 64 : packet;
}

static void make_played(struct random *random, struct input *input, uint64_t count, uint8_t *packet)
{
    uint8_t code = played_code(random, *packet);
    *packet = packet_after(*packet, code);
    if (random_once_in(random, 2)) {
        input_make_coded(random, input, count, code, 0);
    } else {
        uint8_t second_code = played_code(random, *packet);
        *packet = packet_after(*packet, second_code);
        input_make_coded(random, input, count, code | TOP_BIT, second_code);
    }
}

static void make_other(struct random *random, struct input *input, uint64_t count, uint8_t *packet,
                       enum playback playback)
{
    struct lasts lasts = {0, *packet};
    uint8_t code, second_code;
    switch (playback) {
    case PLAYED_BACK:
        make_played(random, input, count, packet);
        return;
    case MOSTLY:
        stream_burst(random, *packet, &code, &second_code);
        input_make_coded(random, input, count, code, second_code);
        break;
    default:
        input_make(random, input, count, other_type(random));
    }
    lasts_take(&lasts, input);
    *packet = lasts.packet;
}

/* Real-time types go round and round, from any; of those that were lost far all are real-time
 * frames, or none or any. Makes the records. */
static void number_sent(struct random *random, struct stream *stream)
{
    uint64_t at = first_sent(random, stream);
    uint64_t rank = random_below(random, TYPES);
    enum playback playback = (enum playback)random_below(random, PLAYBACKS);
    uint8_t packet = 0; /* the last one of a snapshot */
    for (size_t i = 0; i < stream->length; i++) {
        struct sent *sent = &stream->sent[i];
        const uint64_t lost[] = {sent->lost_before, 0, random_to(random, sent->lost_before)};
        at += sent->lost_before;
        rank += lost[random_below(random, 3)];
        sent->at = at++;
        sent->rank = rank;
        rank += sent->real_time;
        if (sent->real_time)
            input_make(random, &sent->input, sent->at, (uint8_t)(sent->rank % TYPES));
        else
            make_other(random, &sent->input, sent->at, &packet, playback);
        sent->mag = input_has_mag(&sent->input);
    }
}

/* The burst packets of what is kept, in their order. */
static void list_packets(struct stream *stream)
{
    stream->packets = 0;
    for (size_t i = 0; i < stream->length; i++) {
        const struct sent *sent = &stream->sent[i];
        struct packet packets[MOST_PACKETS];
        size_t number = sent->fate == KEPT ? input_packets(&sent->input, packets) : 0;
        for (size_t j = 0; j < number; j++)
            stream->packet[stream->packets++] = (struct held_packet){packets[j], sent, 0};
    }
}

/* The first record kept, or the last; NONE if there is none. */
static size_t first_kept(const struct stream *stream)
{
    for (size_t i = 0; i < stream->length; i++)
        if (stream->sent[i].fate == KEPT)
            return i;
    return NONE;
}

static size_t last_kept(const struct stream *stream)
{
    for (size_t i = stream->length; i-- > 0;)
        if (stream->sent[i].fate == KEPT)
            return i;
    return NONE;
}

static uint64_t full_count_of(const struct stream *stream, const struct sent *sent)
{
    return sent->at + stream->offset;
}

/* The record of a full count, or null. */
static struct sent *sent_at(struct stream *stream, uint64_t count)
{
    uint64_t at = count - stream->offset;
    size_t low = 0;
    size_t high = stream->length;
    while (low < high) {
        size_t middle = (low + high) / 2;
        if (stream->sent[middle].at < at)
            low = middle + 1;
        else
            high = middle;
    }
    return low < stream->length && stream->sent[low].at == at ? &stream->sent[low] : NULL;
}

/* "the first accepted record has turn 0", whatever was sent before it. Or the reader has read
 * before, up to any turn from which the stream "ends within turn 4,095" (02, request 1), and the
 * first record kept is later. */
static void begin_counts(struct drive *drive, struct stream *stream)
{
    struct random *random = &drive->random;
    stream->before = (struct lpmag_state){0};
    stream->offset = 0;
    if (first_kept(stream) == NONE)
        return;
    uint64_t first = stream->sent[first_kept(stream)].at;
    uint64_t last = stream->sent[last_kept(stream)].at;
    if (random_once_in(random, 4)) {
        uint64_t turns = (COUNTS - 1 - last) / ROUND;
        stream->offset = ROUND * (random_once_in(random, 2) ? turns : random_to(random, turns));
        uint64_t count = first + stream->offset;
        uint64_t ahead = 1 + random_to(random, AHEAD - 1);
        if (count >= ahead)
            stream->before = (struct lpmag_state){.last = count - ahead, .any = 1};
    } else {
        stream->offset = 0 - first / ROUND * ROUND;
        drive->sent_late += stream->sent[0].at / ROUND < first / ROUND;
    }
    drive->sent_turned += first / ROUND < last / ROUND;
    drive->sent_to_the_end += (last + stream->offset) / ROUND == 4095;
}

/* ---- what is handed out ----------------------------------------------- */

static void expect_true(struct drive *drive, enum function function, bool holds, const char *what,
                        size_t which)
{
    struct question question = {function, NULL, 0, {{what, which}}};
    expect_answer(drive, &question, holds, true);
}

/* An accumulation: its frames are of one round, that of its first, and all were
 * kept; its cells are theirs and 0 elsewhere. */
static void take_accumulation(struct drive *drive, struct stream *stream, enum function function,
                              uint64_t first, uint64_t held, const uint8_t *cells)
{
    uint8_t expected[LPMAG_CELLS] = {0};
    struct question question = {function, NULL, 0, {{"accumulation from count", first}, {"held", held}}};
    const struct sent *end = stream->sent + stream->length;
    struct sent *start = sent_at(stream, first);
    expect_true(drive, function, start != NULL, "an accumulation starts with a count that was sent", first);
    expect_true(drive, function, start->real_time && held <= ALL_HELD && held >> start->rank % TYPES & 1,
                "an accumulation holds the frame of its first count", first);

    uint64_t found = 0;
    uint64_t last = first;
    for (struct sent *sent = start; sent < end && sent->rank / TYPES == start->rank / TYPES; sent++) {
        size_t type = sent->rank % TYPES;
        if (!sent->real_time || (held >> type & 1) == 0)
            continue;
        expect_true(drive, function, sent->fate == KEPT,
                    "an accumulation holds only frames that were kept, type", type);
        lay_expected(sent->input.content.code, sent->input.record + LPMAG_PACKET_AT + LPMAG_SCIENCE_AT,
                     expected);
        sent->in_cells++;
        sent->accumulation = stream->accumulations;
        found |= (uint64_t)1 << type;
        last = full_count_of(stream, sent);
    }
    expect_true(drive, function, found == held, "all frames held were sent from the first on, held", held);
    expect_bytes(drive, &question, "the cells handed out aren't those of the frames held", cells, expected,
                 sizeof expected);
    stream->accumulations++;
    stream->cells += ones(held) * LPMAG_SCIENCE;
    if (held == ALL_HELD)
        drive->accumulations_whole++;
    else
        drive->accumulations_part++;
    drive->accumulations_across += first / ROUND < last / ROUND;
}

/* The next packet of 36 to 55 that isn't handed out so far, or the end of all. */
static size_t next_packet(const struct stream *stream)
{
    size_t next = stream->packets_out;
    while (next < stream->packets && stream->packet[next].packet.type > 55)
        next++;
    return next;
}

/* A snapshot: its packets are the next ones in their order, and its bytes theirs, 0 elsewhere. */
static void take_snapshot(struct drive *drive, struct stream *stream, enum function function,
                          const struct lpmag_closed_snapshot *closed, const uint8_t *snapshot)
{
    uint8_t expected[LPMAG_SNAPSHOT] = {0};
    struct question question = {
        function, NULL, 0, {{"snapshot from count", closed->first}, {"held", closed->held}}};
    uint64_t last = closed->first;
    stream->snapshots++;
    for (unsigned mark = 0; mark < 32; mark++) {
        if ((closed->held >> mark & 1) == 0)
            continue;
        size_t next = next_packet(stream);
        expect_true(drive, function, next < stream->packets, "a snapshot holds packets that were kept, mark",
                    mark);
        struct held_packet *held = &stream->packet[next];
        uint64_t count = full_count_of(stream, held->sent);
        expect_answer(drive, &question, mark, held->packet.type - 36u);
        if ((closed->held & (((uint32_t)1 << mark) - 1)) == 0)
            expect_answer(drive, &question, closed->first, count);
        memcpy(expected + 82 * mark, held->packet.bytes, 82);
        held->snapshot = stream->snapshots;
        stream->packets_out = next + 1;
        stream->bytes += 82;
        last = count;
    }
    expect_bytes(drive, &question, "the snapshot handed out isn't that of the packets held", snapshot,
                 expected, sizeof expected);
    drive->snapshots_of_a_frame += stream->snapshots > 1 && stream->snapshot_first == closed->first;
    stream->snapshot_first = closed->first;
    drive->snapshots_across += closed->first / ROUND < last / ROUND;
    if (ones(closed->held) == PACKETS)
        drive->snapshots_whole++;
    else
        drive->snapshots_part++;
}

/* A major frame: each slot held is that of a record kept, with its subcom word, and
 * with the range and the samples of one that has MAG; all else is 0. */
static void take_major(struct drive *drive, struct stream *stream, enum function function,
                       const struct lpmag_major *major, const int16_t *samples)
{
    int16_t expected[LPMAG_FRAME] = {0};
    struct question question = {function, NULL, 0, {{"major frame", major->number}}};
    for (unsigned slot = 0; slot < SLOTS; slot++) {
        bool held = major->slots >> slot & 1;
        uint64_t count = SLOTS * major->number + slot;
        struct sent *sent = sent_at(stream, count);
        expect_true(drive, function, !held || (sent != NULL && sent->fate == KEPT),
                    "a slot held is that of a record kept, count", count);

        bool mag = held && sent->mag;
        const uint8_t *packet = mag ? sent->input.record + LPMAG_PACKET_AT : NULL;
        question.also[1].name = "slot";
        question.also[1].number = slot;
        expect_answer(drive, &question, major->mag_slots >> slot & 1, mag);
        expect_answer(drive, &question, major->words[slot], held ? sent->input.content.subcom : 0);
        expect_answer(drive, &question, major->ranges[slot], mag ? packet[LPMAG_MAG_AT] % 8 : 0);
        for (size_t k = 0; mag && k < LPMAG_SAMPLES; k++)
            expected[LPMAG_SAMPLES * slot + k] = mag_number(packet + LPMAG_MAG_AT, k);
        if (held)
            sent->in_slots++;
    }
    expect_bytes(drive, &question, "the samples handed out aren't those of the slots held", samples, expected,
                 sizeof expected);
    stream->slots += ones(major->slots);
    stream->samples += ones(major->mag_slots) * LPMAG_SAMPLES;
    if (major->slots == 0xFFFF)
        drive->majors_whole++;
    else
        drive->majors_part++;
}

/* What a call handed out, by the report and buffers of the first. */
static void take_closed(struct drive *drive, struct stream *stream, enum function function,
                        struct reader *reader, struct lpmag_closed closed)
{
    struct rooms *cells = &reader->rooms[FINISHED_CELLS];
    struct rooms *samples = &reader->rooms[FINISHED_SAMPLES];
    if (closed.major_closed)
        take_major(drive, stream, function, &closed.major, room_of_numbers(samples, &samples->first));
    if (closed.accumulation_closed)
        take_accumulation(drive, stream, function, closed.accumulation_first, closed.accumulation_held,
                          room_of_bytes(cells, &cells->first));
    expect_true(drive, function, closed.first_snapshot.closed || !closed.second_snapshot.closed,
                "a second snapshot closes only after a first", 0);
    struct rooms *first = &reader->rooms[FIRST_FINISHED];
    struct rooms *second = &reader->rooms[SECOND_FINISHED];
    if (closed.first_snapshot.closed)
        take_snapshot(drive, stream, function, &closed.first_snapshot, room_of_bytes(first, &first->first));
    if (closed.second_snapshot.closed)
        take_snapshot(drive, stream, function, &closed.second_snapshot,
                      room_of_bytes(second, &second->first));
}

/* ---- the run ---------------------------------------------------------- */

/* The last real-time record kept before this one, since finish was called; NONE if
 * there is none. */
static size_t kept_before(const struct stream *stream, size_t which)
{
    for (size_t i = which; i-- > 0 && !stream->sent[i].finished;)
        if (stream->sent[i].fate == KEPT && stream->sent[i].real_time)
            return i;
    return NONE;
}

/* g: the counts strictly between two that weren't accepted, one by one but for those that were
 * lost far. */
static uint64_t not_kept_between(const struct stream *stream, size_t one, size_t other)
{
    uint64_t g = stream->sent[other].lost_before;
    for (size_t i = one + 1; i < other; i++)
        g += stream->sent[i].lost_before + (stream->sent[i].fate != KEPT);
    return g;
}

/* What becomes of a record that is kept (01, "Joining accumulations"). */
static uint8_t fate_of(const struct stream *stream, size_t which)
{
    const struct sent *sent = &stream->sent[which];
    size_t before = kept_before(stream, which);
    if (!sent->real_time)
        return LPMAG_NEITHER;
    if (before == NONE)
        return LPMAG_OPENS;

    uint64_t g = not_kept_between(stream, before, which);
    uint64_t t = stream->sent[before].rank % TYPES;
    uint64_t u = sent->rank % TYPES;
    return u > t && u - t - 1 <= g && g <= 34 + (u - t) ? LPMAG_JOINS : LPMAG_OPENS;
}

/* A record that has to be refused: spoiled in any way, or one that was sent up to
 * the last accepted, and not so long before that its count could be a later one's. */
static void compare_refused(struct drive *drive, const struct stream *stream, struct reader *reader,
                            const struct input *good, const struct sent *before)
{
    struct input input = *good;
    unsigned rule = random_between(&drive->random, GENERATE_FIRST_RULE, 12);
    if (rule <= GENERATE_LAST_RULE) {
        input_spoil(&drive->random, &input, rule);
        compare_step(drive, reader, &input, (uint8_t)rule);
    } else if (before != NULL && reader->state.any &&
               reader->state.last - full_count_of(stream, before) <= AHEAD + 1) {
        compare_step(drive, reader, &before->input, 12);
    }
}

/* The last accepted count has to be that of the record. */
static void expect_last(struct drive *drive, enum function function, const struct stream *stream,
                        const struct reader *reader, size_t which)
{
    struct question question = {function, NULL, 0, {{"the last accepted count, of record", which}}};
    expect_answer(drive, &question, reader->state.last, full_count_of(stream, &stream->sent[which]));
}

static void compare_finish_of(struct drive *drive, struct stream *stream, struct reader *reader)
{
    static const struct lpmag_closed nothing;
    struct question question = {FINISH, NULL, 0, {{NULL, 0}}};
    compare_finish(drive, reader, LPMAG_OK);
    take_closed(drive, stream, FINISH, reader, reader_closed(reader));
    uint64_t last = reader->state.last;
    compare_finish(drive, reader, LPMAG_OK);
    struct lpmag_closed closed = reader_closed(reader);
    expect_true(drive, FINISH, reader->state.last == last, "finish keeps the last accepted count", last);
    expect_bytes(drive, &question, "a second finish closes something", &closed, &nothing, sizeof nothing);
}

static void run(struct drive *drive, struct stream *stream, struct reader *reader, uint32_t made_up_once_in)
{
    struct random *random = &drive->random;
    reader_make(random, reader, &stream->before);
    for (size_t i = 0; i < stream->length; i++) {
        struct sent *sent = &stream->sent[i];
        if (once_in(random, made_up_once_in))
            compare_refused(drive, stream, reader, &sent->input,
                            i > 0 ? &stream->sent[random_below(random, (uint32_t)i)] : NULL);
        if (sent->fate == SPOILED)
            compare_refused(drive, stream, reader, &sent->input, NULL);
        if (sent->fate == KEPT) {
            compare_step(drive, reader, &sent->input, LPMAG_OK);
            expect_last(drive, STEP, stream, reader, i);
            struct question question = {STEP, NULL, 0, {{"what became of count", sent->input.content.count}}};
            expect_answer(drive, &question, reader_report(reader).gap, fate_of(stream, i));
            take_closed(drive, stream, STEP, reader, reader_report(reader).closed);
        }
        if (sent->finished)
            compare_finish_of(drive, stream, reader);
    }
    compare_finish_of(drive, stream, reader);
}

/* A row of what comes in from a record on, up to the next one after which finish is
 * called; answers the record after that. */
static size_t make_row(struct random *random, const struct stream *stream, size_t from, struct row *row)
{
    row_clear(row);
    bool finished = false;
    size_t i = from;
    for (; i < stream->length && !finished; i++) {
        const struct sent *sent = &stream->sent[i];
        finished = sent->finished;
        if (sent->fate == KEPT)
            row_add(row, &sent->input, LPMAG_OK);
        if (sent->fate == SPOILED) {
            struct input input = sent->input;
            unsigned rule = random_between(random, GENERATE_FIRST_RULE + 1, GENERATE_LAST_RULE);
            input_spoil(random, &input, rule);
            row_add(row, &input, (uint8_t)rule);
        }
    }
    return i;
}

/* The same by feed, with rows of any length. */
static void run_fed(struct drive *drive, struct stream *stream, struct reader *reader)
{
    static struct row row;
    struct random *random = &drive->random;
    reader_make(random, reader, &stream->before);
    for (size_t next = 0; next < stream->length;) {
        next = make_row(random, stream, next, &row);
        for (size_t taken = 0; taken < row.count;) {
            taken += compare_feed(drive, reader, &row, taken, row_part(random, &row, taken));
            take_closed(drive, stream, FEED, reader, reader_fed(reader).closed);
        }
        compare_finish_of(drive, stream, reader);
    }
    if (last_kept(stream) != NONE)
        expect_last(drive, FEED, stream, reader, last_kept(stream));
}

/* 02, request 2, of two neighbouring packets of 36 to 55 that were kept, said of what was sent: the type
 * rises, every count between the two frames was kept, no burst packet after the one, up to and with the
 * other, has bit 6; and finish wasn't called between. */
static bool stand_together(const struct stream *stream, size_t one, size_t other)
{
    const struct held_packet *packets = stream->packet;
    if (packets[other].packet.type <= packets[one].packet.type)
        return false;
    for (size_t i = one + 1; i <= other; i++)
        if (packets[i].packet.bit_6)
            return false;
    for (const struct sent *sent = packets[one].sent; sent < packets[other].sent; sent++)
        if (sent->fate != KEPT || sent->finished || (sent + 1)->lost_before > 0)
            return false;
    return true;
}

/* Every packet of 36 to 55 that was kept is handed out once, in one snapshot with its neighbour exactly
 * where the two stand together. */
static void expect_all_packets(struct drive *drive, const struct stream *stream)
{
    size_t packets = 0;
    size_t last = NONE;
    for (size_t i = 0; i < stream->packets; i++) {
        const struct held_packet *held = &stream->packet[i];
        bool of_snapshot = held->packet.type <= 55;
        expect_true(drive, STEP, (held->snapshot != 0) == of_snapshot,
                    "a packet kept is in one snapshot, the", i);
        if (!of_snapshot)
            continue;
        if (packets > 0)
            expect_true(drive, STEP,
                        (stream->packet[last].snapshot == held->snapshot) == stand_together(stream, last, i),
                        "two packets stand in one snapshot exactly where the rule says, before packet", i);
        last = i;
        packets++;
    }
    expect_true(drive, STEP, stream->bytes == 82 * packets, "bytes of snapshots filled", stream->bytes);
    drive->sent_packets += packets;
}

/* Every record kept is handed out once. An accumulation is torn only where 36
 * counts or more weren't accepted, or finish was called. */
static void expect_all_handed_out(struct drive *drive, struct stream *stream)
{
    size_t kept = 0;
    size_t real_time = 0;
    size_t with_mag = 0;
    const struct sent *last = NULL; /* record kept */
    for (size_t i = 0; i < stream->length; i++) {
        const struct sent *sent = &stream->sent[i];
        bool is_kept = sent->fate == KEPT;
        expect_true(drive, STEP, sent->in_slots == is_kept, "a record kept is in one major frame, the", i);
        expect_true(drive, STEP, sent->in_cells == (is_kept && sent->real_time),
                    "a real-time record kept is in one accumulation, the", i);
        kept += is_kept;
        real_time += is_kept && sent->real_time;
        with_mag += is_kept && sent->mag;
        drive->sent_farthest += is_kept && last != NULL && sent->at - last->at == AHEAD;
        last = is_kept ? sent : last;

        size_t before = is_kept && sent->real_time ? kept_before(stream, i) : NONE;
        if (before != NONE && stream->sent[before].rank / TYPES == sent->rank / TYPES &&
            stream->sent[before].accumulation != sent->accumulation) {
            expect_true(drive, STEP, not_kept_between(stream, before, i) >= 36,
                        "an accumulation is torn only by 36 counts not accepted, before record", i);
            drive->accumulations_torn++;
        }
    }
    expect_true(drive, STEP, stream->cells == 83 * real_time, "cells filled", stream->cells);
    expect_true(drive, STEP, stream->samples == 54 * with_mag, "samples filled", stream->samples);
    expect_true(drive, STEP, stream->slots == kept, "slots held", stream->slots);
    expect_all_packets(drive, stream);
    drive->sent_kept += kept;
    drive->sent_real_time += real_time;
    drive->sent_with_mag += with_mag;
}

enum run { STEPPED, FED };

static void compare_sent(struct drive *drive, enum run how, uint32_t others, struct losses losses,
                         bool spoiled, uint32_t made_up_once_in, uint32_t finish_once_in)
{
    static struct stream stream;
    static struct reader reader;
    struct random *random = &drive->random;
    stream.accumulations = stream.cells = stream.slots = stream.samples = 0;
    stream.snapshots = stream.packets_out = stream.bytes = 0;
    make_sent(random, &stream, others);
    lose(random, &stream, losses, spoiled);
    if (random_once_in(random, 4))
        lose_beginning(random, &stream);
    lose_far(random, &stream, random_once_in(random, 2) ? NEVER : 300);
    number_sent(random, &stream);
    list_packets(&stream);
    begin_counts(drive, &stream);
    for (size_t i = 0; i < stream.length; i++)
        stream.sent[i].finished = once_in(random, finish_once_in);
    if (how == STEPPED)
        run(drive, &stream, &reader, made_up_once_in);
    else
        run_fed(drive, &stream, &reader);
    expect_all_handed_out(drive, &stream);
}

void drive_sent(struct drive *drive)
{
    static const uint32_t others[] = {0, 3, 12, 50, 95};
    static const struct losses losses[] = {
        {NEVER, 1, 1},  /* none */
        {40, 1, 1},     /* single */
        {4, 1, 1},      /* very many */
        {60, 2, 34},    /* bursts that can't tear an accumulation */
        {120, 34, 38},  /* about a round */
        {200, 66, 80},  /* about two */
        {200, 30, 400}, /* long */
    };
    begin(drive, "streams sent in order, with losses of every kind, and what is handed out");
    for (unsigned i = 0; i < 3; i++)
        for (size_t j = 0; j < sizeof others / sizeof others[0]; j++)
            for (size_t k = 0; k < sizeof losses / sizeof losses[0]; k++) {
                compare_sent(drive, STEPPED, others[j], losses[k], false, NEVER, NEVER);
                compare_sent(drive, STEPPED, others[j], losses[k], false, 10, NEVER);
                compare_sent(drive, STEPPED, others[j], losses[k], true, 10, NEVER);
                compare_sent(drive, STEPPED, others[j], losses[k], i % 2 == 0, 10, 50);
            }

    begin(drive, "the same streams fed in parts, and what is handed out");
    for (size_t j = 0; j < sizeof others / sizeof others[0]; j++)
        for (size_t k = 0; k < sizeof losses / sizeof losses[0]; k++) {
            compare_sent(drive, FED, others[j], losses[k], false, NEVER, NEVER);
            compare_sent(drive, FED, others[j], losses[k], true, NEVER, NEVER);
            compare_sent(drive, FED, others[j], losses[k], true, NEVER, 50);
        }
}
