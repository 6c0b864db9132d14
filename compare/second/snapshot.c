/* The second reader's snapshot: its bytes by 000's printed table, which is read as text, and the
 * questions about it. */
#include "snapshot.h"

#include "bursts.h"
#include "printed.h"

/* ---- what stands where ------------------------------------------------ */

/* 02, request 2, in this order. */
enum { HEADER, THREE_D, PITCH_ANGLE, MAG_ANGLES, ER_TABLE, PARTS };

/* Each under the name that it has in 000's table. */
static const struct {
    const char *name;
    size_t bytes;
} parts[PARTS] = {
    [HEADER] = {"ER Header", 4},     [THREE_D] = {"3D data", 1320}, [PITCH_ANGLE] = {"PA data", 240},
    [MAG_ANGLES] = {"MagAngles", 4}, [ER_TABLE] = {"ER Table", 72},
};

/* A byte of a part: the parts before it come first. */
static size_t place_in(size_t part, size_t byte)
{
    size_t before = 0;
    if (byte >= parts[part].bytes)
        return SECOND_NOWHERE;
    for (size_t other = 0; other < part; other++)
        before += parts[other].bytes;
    return before + byte;
}

/* ---- which packet carries a byte -------------------------------------- */

/* 000 section 2.4.1, "ER Burst Packet Contents", as it is printed but for type 50: there it has
 * "3D data bytes 1044-1225", and "Type 50's printed 1044 must be 1144, or cells collide" (02,
 * request 2). */
static const char *const contents[SECOND_PACKETS] = {
    "ER Header (4 bytes), 3D data bytes 0-77",
    "3D data bytes 78-159",
    "3D data bytes 160-241",
    "3D data bytes 242-323",
    "3D data bytes 324-405",
    "3D data bytes 406-487",
    "3D data bytes 488-569",
    "3D data bytes 570-651",
    "3D data bytes 652-733",
    "3D data bytes 734-815",
    "3D data bytes 816-897",
    "3D data bytes 898-979",
    "3D data bytes 980-1061",
    "3D data bytes 1062-1143",
    "3D data bytes 1144-1225",
    "3D data bytes 1226-1307",
    "3D data bytes 1308-1319, PA data bytes 0-69",
    "PA data bytes 70-151",
    "PA data bytes 152-233",
    "PA data bytes 234-239, MagAngles (4 bytes), ER Table (72 bytes)",
};

/* The name of a part and " bytes a-b" of it, or " (n bytes)", which is all of it. */
static bool read_item(struct second_table *table, struct second_line *line)
{
    for (size_t part = 0; part < PARTS; part++) {
        size_t bytes = parts[part].bytes;
        if (!second_pass(line, parts[part].name))
            continue;
        if (second_pass(line, " bytes "))
            return second_carry_bytes(table, line, place_in(part, 0), bytes);
        return second_pass(line, " (") && second_read_number(line) == bytes && second_pass(line, " bytes)") &&
               second_carry(table, line, place_in(part, 0), bytes);
    }
    return false;
}

static struct second_carriage carriage[SECOND_SNAPSHOT];
static struct second_table packets = {.lines = contents,
                                      .first_type = SECOND_FIRST_PACKET,
                                      .types = SECOND_PACKETS,
                                      .bytes = SECOND_BURST,
                                      .places = SECOND_SNAPSHOT,
                                      .length = SECOND_SNAPSHOT,
                                      .carriage = carriage,
                                      .read_item = read_item};

bool second_snapshot_whole(void)
{
    return second_table_whole(&packets);
}

/* ---- laying ----------------------------------------------------------- */

bool second_in_snapshot(uint8_t type)
{
    return type >= SECOND_FIRST_PACKET && type < SECOND_FIRST_PACKET + SECOND_PACKETS;
}

void second_lay_burst(uint8_t type, const uint8_t *bytes, uint8_t *snapshot)
{
    second_lay(&packets, type, bytes, snapshot);
}

/* ---- the questions ---------------------------------------------------- */

uint8_t second_snapshot_byte(const uint8_t *snapshot, size_t length, uint32_t held, size_t place,
                             uint8_t *byte)
{
    return second_byte_at(&packets, snapshot, length, held, place, byte);
}

/* A byte of a part that has rows of so many. */
static size_t place_in_row(size_t part, size_t rows, size_t row, size_t of_a_row, size_t number)
{
    return row < rows && number < of_a_row ? place_in(part, of_a_row * row + number) : SECOND_NOWHERE;
}

/* "The 1320 bytes of 3D data are in the same format as described in section 2.3.2 above": "15 groups
 * of 88 angles, read out in ascending energy step number order". */
uint8_t second_snapshot_three_d(const uint8_t *snapshot, size_t length, uint32_t held, size_t step,
                                size_t angle, uint64_t *low, uint64_t *high)
{
    size_t place = place_in_row(THREE_D, 15, step, 88, angle);
    return second_counts_at(&packets, snapshot, length, held, place, 1, low, high);
}

/* "16 pitch angle samples for each of 15 energies, in ascending energy step number order"; "the burst
 * pitch angle data is not pre-scaled, and the pre-scale bits are not useful". */
uint8_t second_snapshot_pitch(const uint8_t *snapshot, size_t length, uint32_t held, size_t energy,
                              size_t angle, uint64_t *low, uint64_t *high)
{
    size_t place = place_in_row(PITCH_ANGLE, 15, energy, 16, angle);
    return second_counts_at(&packets, snapshot, length, held, place, 1, low, high);
}

/* "The ER Header is in the same format described in section 2.3.1 above": Total and Rate are its
 * third and fourth byte, each divided by 16. */
uint8_t second_snapshot_total(const uint8_t *snapshot, size_t length, uint32_t held, uint64_t *low,
                              uint64_t *high)
{
    return second_counts_at(&packets, snapshot, length, held, place_in(HEADER, 2), 16, low, high);
}

uint8_t second_snapshot_rate(const uint8_t *snapshot, size_t length, uint32_t held, uint64_t *low,
                             uint64_t *high)
{
    return second_counts_at(&packets, snapshot, length, held, place_in(HEADER, 3), 2 * 8, low, high);
}

/* "MagTh #0, MagPhi #0, MagTh #1, MagPhi #1" */
uint8_t second_snapshot_angle(const uint8_t *snapshot, size_t length, uint32_t held, size_t number,
                              uint8_t *angle)
{
    return second_snapshot_byte(snapshot, length, held, place_in(MAG_ANGLES, number), angle);
}
