/* C11 section 7.22, as far as small programs use it. */
#ifndef KIT_HEADERS_STDLIB_H
#define KIT_HEADERS_STDLIB_H

#include <stddef.h>

#define EXIT_SUCCESS 0
#define EXIT_FAILURE 1

_Noreturn void exit(int status);
void *malloc(size_t size);
void *calloc(size_t count, size_t size);
void free(void *room);
long strtol(const char *restrict text, char **restrict end, int base);
unsigned long strtoul(const char *restrict text, char **restrict end, int base);
double strtod(const char *restrict text, char **restrict end);

#endif
