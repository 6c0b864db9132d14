/* What the measurements have in common: the clock, and what is made of timings. */
#ifndef TIMING_H
#define TIMING_H

#include <stddef.h>
#include <stdint.h>

uint64_t nanoseconds(void);

/* The timings of one function; best and median are known once they are sorted. */
enum { MOST_TIMINGS = 500 };

struct timings {
    size_t count;
    uint64_t of[MOST_TIMINGS];
};

void add_timing(struct timings *timings, uint64_t nanoseconds);
void sort_timings(struct timings *timings);

/* A line with the best and the median time of one `unit`, of which there are so
 * many in each timing; how many a second that is, at best and in the median; and the
 * ratios of two functions. */
void print_times(const char *title, const struct timings *timings, uint64_t units, const char *unit);
void print_rates(const char *title, const struct timings *timings, uint64_t units, const char *units_name);
void print_ratios(const char *title, const struct timings *one, const struct timings *other);

#endif
