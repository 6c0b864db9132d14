/* Small streams for programs to list, alone or many in a file. */
#ifndef CASES_H
#define CASES_H

#include "sending.h"

/* Cases are small streams, so many of a kind. One can be a file by itself, from its count or any
 * other. Or all of a kind are one file: their counts are so far apart that what a case leaves
 * open is closed by the next. */
struct cases {
    const char *name;
    uint32_t (*number)(void);
    void (*print)(struct sending *sending, uint32_t which);
};

const struct cases *cases_named(const char *name); /* null if there are none */
void print_case(const struct cases *cases, uint64_t seed, uint32_t which, uint32_t count);
void print_cases(const struct cases *cases, uint64_t seed);
uint32_t count_of_case(uint32_t which);
uint64_t case_of_count(uint64_t count);

#endif
