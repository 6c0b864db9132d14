/* C11 section 7.21, as far as small programs use it and as glibc exports it. */
#ifndef KIT_HEADERS_STDIO_H
#define KIT_HEADERS_STDIO_H

#include <stddef.h>

typedef struct file FILE;

extern FILE *stdin;
extern FILE *stdout;
extern FILE *stderr;

#define EOF (-1)

FILE *fopen(const char *restrict path, const char *restrict mode);
FILE *freopen(const char *restrict path, const char *restrict mode, FILE *restrict file);
size_t fread(void *restrict room, size_t size, size_t count, FILE *restrict file);
size_t fwrite(const void *restrict bytes, size_t size, size_t count, FILE *restrict file);
int fputs(const char *restrict text, FILE *restrict file);
int puts(const char *text);
int putchar(int character);
void perror(const char *text);
int feof(FILE *file);
int ferror(FILE *file);
int fflush(FILE *file);
int fclose(FILE *file);

__attribute__((format(printf, 1, 2))) int printf(const char *restrict format, ...);
__attribute__((format(printf, 2, 3))) int fprintf(FILE *restrict file, const char *restrict format, ...);
__attribute__((format(printf, 3, 4))) int snprintf(char *restrict room, size_t size,
                                                   const char *restrict format, ...);

#endif
