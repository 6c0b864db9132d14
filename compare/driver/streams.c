#include "streams.h"

uint64_t stream_first(struct random *random)
{
    switch (random_below(random, 4)) {
    case 0:
        return 0;
    case 1:
        return ROUND - 1 - random_below(random, 3000);
    default:
        return random_to(random, ROUND - 1);
    }
}

static uint64_t far_ahead(struct random *random)
{
    switch (random_below(random, 4)) {
    case 0:
        return AHEAD;
    case 1:
        return AHEAD - 1;
    default:
        return 1 + random_to(random, AHEAD - 1);
    }
}

uint64_t stream_ahead(struct random *random)
{
    switch (random_below(random, 16)) {
    case 0:
        return random_between(random, 30, 40);
    case 1:
        return random_between(random, 60, 75);
    case 2:
        return random_between(random, 1, 300);
    case 3:
        return random_between(random, 2, 5);
    case 4:
        return random_once_in(random, 8) ? far_ahead(random) : 1;
    default:
        return 1;
    }
}

uint64_t stream_late(struct random *random, uint64_t last)
{
    static const uint64_t most[] = {0, 1, 40, AHEAD + 1};
    uint64_t back = most[random_below(random, 4)];
    if (random_once_in(random, 2))
        back = random_to(random, back);
    return (last + ROUND - back) % ROUND;
}

bool stream_can_pass(uint64_t last)
{
    return last + AHEAD >= COUNTS;
}

uint64_t stream_past(struct random *random, uint64_t last)
{
    uint64_t most = last + AHEAD - COUNTS;
    switch (random_below(random, 4)) {
    case 0:
        return COUNTS;
    case 1:
        return COUNTS + most;
    default:
        return COUNTS + random_to(random, most);
    }
}

struct lasts lasts_of(const struct lpmag_state *state)
{
    return (struct lasts){state->accumulation.last_type, state->snapshot.last_type};
}

static uint8_t stream_type(struct random *random, uint8_t last)
{
    if (random_once_in(random, 6))
        return (uint8_t)random_below(random, TYPES);
    return (uint8_t)((last + (random_once_in(random, 4) ? random_below(random, 6) : 1)) % TYPES);
}

/* Mostly one above the last, or 36 after 55; now and then another above it, the same, or any. Bit 6
 * is rarely set in a packet of a snapshot, and half the time in another. */
static uint8_t packet_code(struct random *random, uint8_t last)
{
    uint8_t next = last < 36 || last > 54 ? 36 : (uint8_t)(last + 1);
    uint8_t type = next;
    switch (random_below(random, 12)) {
    case 0:
        type = (uint8_t)random_between(random, next, 55);
        break;
    case 1:
        type = burst_type(random_below(random, BURST_TYPES));
        break;
    case 2:
        type = burst_type(random_between(random, 20, BURST_TYPES - 1));
        break;
    case 3:
        type = last < 36 ? 36 : last;
        break;
    }
    return random_once_in(random, type > 55 ? 2 : 16) ? type | BIT_6 : type;
}

void stream_burst(struct random *random, uint8_t packet, uint8_t *code, uint8_t *second_code)
{
    *code = packet_code(random, packet);
    *second_code = 0;
    if (random_once_in(random, 2)) {
        uint8_t type = *code % 64;
        *second_code = packet_code(random, type <= 55 ? type : packet);
        *second_code |= random_once_in(random, 2) ? TOP_BIT : 0;
        *code |= TOP_BIT;
    }
}

void stream_input(struct random *random, struct input *input, uint64_t count, struct lasts lasts)
{
    uint8_t code, second_code;
    switch (random_below(random, 12)) {
    case 0:
        input_make(random, input, count, other_type(random));
        break;
    case 1:
    case 2:
    case 3:
    case 4:
        stream_burst(random, lasts.packet, &code, &second_code);
        input_make_coded(random, input, count, code, second_code);
        break;
    default:
        input_make(random, input, count, stream_type(random, lasts.type));
    }
}

void lasts_take(struct lasts *lasts, const struct input *input)
{
    struct packet packets[MOST_PACKETS];
    uint8_t type = input->content.code & 63;
    size_t number = input_packets(input, packets);
    if (type < TYPES)
        lasts->type = type;
    for (size_t i = 0; i < number; i++)
        if (packets[i].type <= 55)
            lasts->packet = packets[i].type;
}

uint8_t any_type(struct random *random)
{
    return random_once_in(random, 3) ? other_type(random) : (uint8_t)random_below(random, TYPES);
}
