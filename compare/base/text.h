/* Text out of the programs, and their arguments into them. */
#ifndef TEXT_H
#define TEXT_H

#include <stdbool.h>
#include <stddef.h>
#include <stdint.h>

/* To standard output, through a buffer. */
void print_text(const char *text);
void print_number(uint64_t number);
void print_hex(const uint8_t *bytes, size_t length); /* two lowercase digits a byte */
void print_bytes(const uint8_t *bytes, size_t length);
void print_flush(void); /* before the program ends */

/* To standard error, through a buffer of its own. */
void error_text(const char *text);
void error_number(uint64_t number);
void error_flush(void); /* before the program ends */

/* Writes what is in the buffers, then the sentence as a line to standard error,
 * and ends the program. */
_Noreturn void fail(int status, const char *sentence);

bool same_text(const char *one, const char *other);

/* Reads a decimal number below 2^64; false for any other text. */
bool decimal(const char *text, uint64_t *number);

#endif
