/* A small sample of single records, for programs that read them. */
#ifndef RECORDS_H
#define RECORDS_H

#include <stdint.h>

/* Prints the sample's bytes to standard output: good records of every kind and
 * refused ones of every number from 3 to 11 by turns, and last a short tail. */
void print_records(uint64_t seed);

#endif
