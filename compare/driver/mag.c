#include "mag.h"

#include "differ.h"
#include "records.h"
#include "second/bursts.h"
#include "second/record.h"

void compare_mag(struct drive *drive, const uint8_t *mag, size_t length, size_t room_numbers)
{
    struct question question = {RANGE, mag, length, {{NULL, 0}}};
    uint8_t range = lpmag_range(mag, length);
    same_answer(drive, &question, range, second_range(mag, length));

    struct rooms rooms;
    rooms_make(&rooms, &drive->random, room_numbers * sizeof(int16_t));
    uint8_t first = lpmag_samples(mag, length, room_of_numbers(&rooms, &rooms.first), room_numbers);
    uint8_t second = second_samples(mag, length, room_of_numbers(&rooms, &rooms.second), room_numbers);
    question = (struct question){SAMPLES, mag, length, {{"room", room_numbers}}};
    same_answer(drive, &question, first, second);
    expect_answer(drive, &question, first, room_numbers == LPMAG_SAMPLES ? range : LPMAG_NO_SUCH_PLACE);
    same_rooms(drive, &question, &rooms, first == LPMAG_NO_SUCH_PLACE);
    drive->ranges[first]++;
}

/* ---- a second of MAG in a burst --------------------------------------- */

/* The 82 bytes of burst packet `which` if it is of type 56; null where the record doesn't pass, has
 * no such packet or has one of another type (000, sections 2.1.2, 2.1.3 and 2.4). */
static const uint8_t *burst_mag(const uint8_t *record, size_t length, uint8_t which)
{
    if (lpmag_check(record, length) != LPMAG_OK)
        return NULL;
    const uint8_t *packet = record + LPMAG_PACKET_AT;
    uint8_t kind = kind_of(packet[0], packet[85]);
    if (kind == LPMAG_HALF_BURST)
        return which == 0 && packet[0] % 64 == 56 ? packet + 86 : NULL;
    if (kind != LPMAG_FULL_BURST || which > 1)
        return NULL;
    return packet[which == 0 ? 0 : 85] % 64 == 56 ? packet + (which == 0 ? 3 : 86) : NULL;
}

void compare_burst(struct drive *drive, const uint8_t *record, size_t length, uint8_t which,
                   size_t room_numbers)
{
    const uint8_t *mag = burst_mag(record, length, which);
    uint8_t range = mag == NULL ? LPMAG_NO_SUCH_PLACE : mag[0] % 8;
    struct question question = {BURST_RANGE, record, length, {{"packet", which}}};
    uint8_t first = lpmag_burst_range(record, length, which);
    same_answer(drive, &question, first, second_burst_range(record, length, which));
    expect_answer(drive, &question, first, range);

    struct rooms rooms;
    rooms_make(&rooms, &drive->random, room_numbers * sizeof(int16_t));
    int16_t *room = room_of_numbers(&rooms, &rooms.first);
    first = lpmag_burst_samples(record, length, which, room, room_numbers);
    uint8_t second =
        second_burst_samples(record, length, which, room_of_numbers(&rooms, &rooms.second), room_numbers);
    question = (struct question){BURST_SAMPLES, record, length, {{"packet", which}, {"room", room_numbers}}};
    same_answer(drive, &question, first, second);
    expect_answer(drive, &question, first, room_numbers == LPMAG_SAMPLES ? range : LPMAG_NO_SUCH_PLACE);
    same_rooms(drive, &question, &rooms, first == LPMAG_NO_SUCH_PLACE);
    for (size_t k = 0; first != LPMAG_NO_SUCH_PLACE && k < LPMAG_SAMPLES; k++)
        expect_answer(drive, &question, (uint64_t)(room[k] + 2048), (uint64_t)(mag_number(mag, k) + 2048));
    drive->burst_ranges[first][which % 2]++;
}
