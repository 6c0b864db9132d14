/* C11 section 7.24, as far as it is used here. */
#ifndef FREESTANDING_STRING_H
#define FREESTANDING_STRING_H

#include <stddef.h>

void *memcpy(void *restrict to, const void *restrict from, size_t length);
void *memset(void *room, int byte, size_t length);
int memcmp(const void *one, const void *other, size_t length);

#endif
