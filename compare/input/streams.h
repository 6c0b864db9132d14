/* Streams of anything, of which a seed makes one. */
#ifndef STREAMS_H
#define STREAMS_H

#include <stdint.h>

void print_any(uint64_t seed);      /* any types and counts, refused records, a tail */
void print_repeated(uint64_t seed); /* every record more than once */
void print_spoiled(uint64_t seed);  /* every record refused */
void print_random(uint64_t seed);   /* any bytes, any number of them */
void print_climb(uint64_t seed);    /* by jumps up to the end of the last turn */

#endif
