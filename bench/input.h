/* The input of the whole programs beside this: one file or standard input, in reads of
 * the size that compare/second/list.c has. */
#ifndef INPUT_H
#define INPUT_H

#include "../include/lpmag.h"

#include <stddef.h>
#include <stdint.h>

enum { RECORDS_OF_A_READ = 256 };

struct input {
    int file;
    size_t held;  /* bytes read */
    size_t given; /* of them, by the last call of next_records */
    uint8_t bytes[RECORDS_OF_A_READ * LPMAG_RECORD];
};

/* The file of that name, or standard input where the name is null. */
void begin_input(struct input *input, const char *name);

/* Puts the next records to the front of the bytes and answers how many bytes they
 * are: whole records but for a short tail at the very end, after which it answers 0. */
size_t next_records(struct input *input);

#endif
