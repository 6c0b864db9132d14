/* Numbers that look random and come from a seed: splitmix64. */
#ifndef RANDOM_H
#define RANDOM_H

#include <stdbool.h>
#include <stddef.h>
#include <stdint.h>

struct random {
    uint64_t state;
};

uint64_t random_next(struct random *random);

/* A number below `bound`, which is at least 1. */
uint32_t random_below(struct random *random, uint32_t bound);

/* A number from 0 to `most`, both included, which is below 2^64 - 1. */
uint64_t random_to(struct random *random, uint64_t most);

/* A number from `low` to `high`, both included. */
uint32_t random_between(struct random *random, uint32_t low, uint32_t high);

/* True once in `times` on average. */
bool random_once_in(struct random *random, uint32_t times);

void random_fill(struct random *random, uint8_t *room, size_t length);

#endif
