/* The printed example, the samples of whole streams, and a long stream. */
#ifndef SAMPLES_H
#define SAMPLES_H

#include <stdint.h>

void print_example(uint64_t seed);
void print_stream(uint64_t seed);
void print_refusals(uint64_t seed);
void print_turn(uint64_t seed);
void print_bursts(uint64_t seed);
void print_many(uint64_t seed, uint64_t records);

#endif
