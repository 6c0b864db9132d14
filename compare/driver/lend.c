#include "lend.h"

#include "base/text.h"

#include <system.h>

/* No page of any machine that runs this is larger. */
#define PAGE 65536

/* What is lent at a time, each in a place of its own. */
enum place { BYTES, NUMBERS, STRUCTS, PLACES };

/* The end of a place: before it bytes can be read, and after it comes an unreadable page. */
static uint8_t *end_of(enum place place)
{
    static uint8_t *ends[PLACES];
    if (ends[place] == NULL) {
        uint8_t *start = mmap(NULL, 2 * PAGE, PROT_READ | PROT_WRITE, MAP_PRIVATE | MAP_ANONYMOUS, -1, 0);
        if (start == MAP_FAILED || mprotect(start + PAGE, PAGE, PROT_NONE) != 0)
            fail(1, "no memory can be had for the bytes to be lent");
        ends[place] = start + PAGE;
    }
    return ends[place];
}

/* A copy that ends there, or a number of bytes below 16 before. */
static void *lend(enum place place, bool null, size_t before, const void *bytes, size_t length)
{
    if (length > LEND_BYTES)
        fail(1, "compare: more bytes were asked for than can be lent");
    if (length == 0)
        return null ? NULL : end_of(place);
    uint8_t *lent = end_of(place) - length - before;
    memcpy(lent, bytes, length);
    return lent;
}

const uint8_t *lend_bytes(struct random *random, const uint8_t *bytes, size_t length)
{
    bool coin = random_once_in(random, 2);
    return lend(BYTES, coin, coin ? 0 : random_below(random, 16), bytes, length);
}

const int16_t *lend_numbers(struct random *random, const int16_t *numbers, size_t count)
{
    bool coin = random_once_in(random, 2);
    return lend(NUMBERS, coin, coin ? 0 : 2 * random_below(random, 8), numbers, count * sizeof *numbers);
}

const void *lend_struct(struct random *random, const void *bytes, size_t length)
{
    return lend(STRUCTS, false, random_once_in(random, 2) ? 0 : LEND_ALIGNED, bytes, length);
}

size_t rooms_whole(const struct rooms *rooms)
{
    return rooms->at + rooms->length + LEND_GUARD;
}

/* So many bytes from any place among many that are made once: rooms are made far more
 * often than they need bytes of their own. */
static const uint8_t *any_bytes(struct random *random, size_t length)
{
    static uint8_t made[65536];
    static bool done = false;
    if (!done)
        random_fill(random, made, sizeof made);
    done = true;
    return made + random_below(random, (uint32_t)(sizeof made - length + 1));
}

void rooms_make(struct rooms *rooms, struct random *random, size_t length)
{
    if (length > LEND_ROOM)
        fail(1, "compare: a room was asked for that is larger than any that can be lent");
    rooms->name = NULL;
    rooms->at = LEND_GUARD + (random_once_in(random, 2) ? LEND_ALIGNED : 0);
    rooms->length = length;
    rooms->null = length == 0 && random_once_in(random, 2);
    const uint8_t *found = any_bytes(random, rooms_whole(rooms));
    memcpy(rooms->found.bytes, found, rooms_whole(rooms));
    memcpy(rooms->first.bytes, found, rooms_whole(rooms));
    memcpy(rooms->second.bytes, found, rooms_whole(rooms));
}

void rooms_put(struct rooms *rooms, const void *bytes, size_t length)
{
    memcpy(rooms->found.bytes + rooms->at, bytes, length);
    memcpy(rooms->first.bytes + rooms->at, bytes, length);
    memcpy(rooms->second.bytes + rooms->at, bytes, length);
}

uint8_t *room_of_bytes(const struct rooms *rooms, union lent *lent)
{
    return rooms->null ? NULL : lent->bytes + rooms->at;
}

int16_t *room_of_numbers(const struct rooms *rooms, union lent *lent)
{
    return rooms->null ? NULL : lent->numbers + rooms->at / sizeof lent->numbers[0];
}

float *room_of_fields(const struct rooms *rooms, union lent *lent)
{
    return rooms->null ? NULL : lent->fields + rooms->at / sizeof lent->fields[0];
}

void *room_of_struct(const struct rooms *rooms, union lent *lent)
{
    return lent->bytes + rooms->at;
}

static bool changed(const union lent *now, const union lent *found, size_t at, size_t length)
{
    return memcmp(now->bytes + at, found->bytes + at, length) != 0;
}

static bool changed_around(const struct rooms *rooms, const union lent *now)
{
    return changed(now, &rooms->found, 0, rooms->at) ||
           changed(now, &rooms->found, rooms->at + rooms->length, LEND_GUARD);
}

const char *rooms_wrong(const struct rooms *rooms, bool kept)
{
    if (changed_around(rooms, &rooms->first))
        return "the first changes bytes outside its room";
    if (changed_around(rooms, &rooms->second))
        return "the second changes bytes outside its room";
    if (kept && changed(&rooms->first, &rooms->found, rooms->at, rooms->length))
        return "the first changes a room that has to stay as found";
    if (kept && changed(&rooms->second, &rooms->found, rooms->at, rooms->length))
        return "the second changes a room that has to stay as found";
    if (changed(&rooms->first, &rooms->second, rooms->at, rooms->length))
        return "the rooms differ";
    return NULL;
}

void ranges_make(struct ranges *ranges, struct random *random)
{
    for (size_t i = 0; i < RANGE_NUMBERS; i++)
        ranges->found[i] = ranges->first[i] = ranges->second[i] = random_next(random);
}

static bool number_changed(const uint64_t *now, const struct ranges *ranges, size_t at)
{
    return now[at] != ranges->found[at];
}

static bool numbers_changed_around(const uint64_t *now, const struct ranges *ranges)
{
    return number_changed(now, ranges, LOW - 1) || number_changed(now, ranges, LOW + 1) ||
           number_changed(now, ranges, HIGH + 1);
}

const char *ranges_wrong(const struct ranges *ranges, bool kept)
{
    const uint64_t *first = ranges->first;
    const uint64_t *second = ranges->second;
    if (numbers_changed_around(first, ranges))
        return "the first changes numbers that weren't lent to it";
    if (numbers_changed_around(second, ranges))
        return "the second changes numbers that weren't lent to it";
    if (kept && (number_changed(first, ranges, LOW) || number_changed(first, ranges, HIGH)))
        return "the first changes a number that has to stay as found";
    if (kept && (number_changed(second, ranges, LOW) || number_changed(second, ranges, HIGH)))
        return "the second changes a number that has to stay as found";
    if (first[LOW] != second[LOW] || first[HIGH] != second[HIGH])
        return "the ranges differ";
    return NULL;
}
