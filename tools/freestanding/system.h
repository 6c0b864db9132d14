/* The C library's functions that the programs call. The names and numbers are
 * those of x86-64 Linux, the one target. */
#ifndef FREESTANDING_SYSTEM_H
#define FREESTANDING_SYSTEM_H

#include <stddef.h>
#include <string.h>

int open(const char *name, int flags, ...);
int close(int file);
long read(int file, void *room, size_t length);
long write(int file, const void *bytes, size_t length);
_Noreturn void exit(int status);

void *mmap(void *wanted, size_t length, int protection, int flags, int file, long offset);
int mprotect(void *start, size_t length, int protection);

struct timespec {
    long tv_sec;
    long tv_nsec;
};
int clock_gettime(int clock, struct timespec *time);

#define CLOCK_MONOTONIC 1

#define PROT_NONE 0
#define PROT_READ 1
#define PROT_WRITE 2
#define MAP_PRIVATE 0x02
#define MAP_ANONYMOUS 0x20
#define MAP_FAILED ((void *)-1)

#define O_RDONLY 0

#define STANDARD_INPUT 0
#define STANDARD_OUTPUT 1
#define STANDARD_ERROR 2

#endif
