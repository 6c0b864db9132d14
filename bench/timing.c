#include "timing.h"

#include "../compare/base/text.h"

#include <system.h>

#define SECOND 1000000000u /* in nanoseconds */

uint64_t nanoseconds(void)
{
    struct timespec now;
    if (clock_gettime(CLOCK_MONOTONIC, &now) != 0)
        fail(1, "bench: the clock can't be read");
    return (uint64_t)now.tv_sec * SECOND + (uint64_t)now.tv_nsec;
}

void add_timing(struct timings *timings, uint64_t time)
{
    if (timings->count == MOST_TIMINGS)
        fail(1, "bench: there are more timings than can be kept");
    timings->of[timings->count++] = time;
}

void sort_timings(struct timings *timings)
{
    for (size_t i = 1; i < timings->count; i++)
        for (size_t j = i; j > 0 && timings->of[j - 1] > timings->of[j]; j--) {
            uint64_t larger = timings->of[j - 1];
            timings->of[j - 1] = timings->of[j];
            timings->of[j] = larger;
        }
}

static uint64_t best(const struct timings *timings)
{
    return timings->of[0];
}

static uint64_t median(const struct timings *timings)
{
    return timings->of[timings->count / 2];
}

static void print_hundredths(uint64_t hundredths)
{
    print_number(hundredths / 100);
    print_text(hundredths % 100 < 10 ? ".0" : ".");
    print_number(hundredths % 100);
}

void print_times(const char *title, const struct timings *timings, uint64_t units, const char *unit)
{
    print_text(title);
    print_hundredths(best(timings) * 100 / units);
    print_text(" ns a ");
    print_text(unit);
    print_text(" at best, ");
    print_hundredths(median(timings) * 100 / units);
    print_text(" in the median\n");
}

void print_rates(const char *title, const struct timings *timings, uint64_t units, const char *units_name)
{
    print_text(title);
    print_number(units * SECOND / best(timings));
    print_text(" ");
    print_text(units_name);
    print_text(" a second at best, ");
    print_number(units * SECOND / median(timings));
    print_text(" in the median\n");
}

void print_ratios(const char *title, const struct timings *one, const struct timings *other)
{
    print_text(title);
    print_hundredths(best(one) * 100 / best(other));
    print_text(" at best, ");
    print_hundredths(median(one) * 100 / median(other));
    print_text(" in the median\n");
}
