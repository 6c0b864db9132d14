#include "random.h"

#include <system.h>

uint64_t random_next(struct random *random)
{
    uint64_t mixed = random->state += 0x9E3779B97F4A7C15;
    mixed = (mixed ^ mixed >> 30) * 0xBF58476D1CE4E5B9;
    mixed = (mixed ^ mixed >> 27) * 0x94D049BB133111EB;
    return mixed ^ mixed >> 31;
}

uint32_t random_below(struct random *random, uint32_t bound)
{
    return (uint32_t)((random_next(random) >> 32) * bound >> 32);
}

uint64_t random_to(struct random *random, uint64_t most)
{
    return random_next(random) % (most + 1);
}

uint32_t random_between(struct random *random, uint32_t low, uint32_t high)
{
    return low + (uint32_t)random_to(random, high - low);
}

bool random_once_in(struct random *random, uint32_t times)
{
    return random_below(random, times) == 0;
}

void random_fill(struct random *random, uint8_t *room, size_t length)
{
    while (length > 0) {
        uint64_t bytes = random_next(random);
        size_t size = length < sizeof bytes ? length : sizeof bytes;
        memcpy(room, &bytes, size);
        room += size;
        length -= size;
    }
}
