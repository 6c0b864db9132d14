#include "text.h"

#include <system.h>

/* What waits to be written to a file. */
struct waiting {
    size_t held;
    uint8_t bytes[8192];
};
static struct waiting output;
static struct waiting errors;

/* ---- bytes ------------------------------------------------------------ */

/* A write may take less than it is given. */
static bool write_all(int file, const uint8_t *bytes, size_t length)
{
    while (length > 0) {
        long written = write(file, bytes, length);
        if (written <= 0)
            return false;
        bytes += written;
        length -= (size_t)written;
    }
    return true;
}

/* What could not be written isn't tried again. */
void print_flush(void)
{
    size_t length = output.held;
    output.held = 0;
    if (!write_all(STANDARD_OUTPUT, output.bytes, length))
        fail(1, "standard output can't be written");
}

/* There is nowhere left to say that it can't be written. */
void error_flush(void)
{
    size_t length = errors.held;
    errors.held = 0;
    if (!write_all(STANDARD_ERROR, errors.bytes, length))
        exit(1);
}

static void put_bytes(struct waiting *waiting, void (*flush)(void), const uint8_t *bytes, size_t length)
{
    while (length > 0) {
        if (waiting->held == sizeof waiting->bytes)
            flush();
        size_t room = sizeof waiting->bytes - waiting->held;
        size_t size = length < room ? length : room;
        memcpy(waiting->bytes + waiting->held, bytes, size);
        waiting->held += size;
        bytes += size;
        length -= size;
    }
}

void print_bytes(const uint8_t *bytes, size_t length)
{
    put_bytes(&output, print_flush, bytes, length);
}

static void error_bytes(const uint8_t *bytes, size_t length)
{
    put_bytes(&errors, error_flush, bytes, length);
}

/* ---- text ------------------------------------------------------------- */

static size_t text_length(const char *text)
{
    size_t length = 0;
    while (text[length] != '\0')
        length++;
    return length;
}

void print_text(const char *text)
{
    print_bytes((const uint8_t *)text, text_length(text));
}

void error_text(const char *text)
{
    error_bytes((const uint8_t *)text, text_length(text));
}

static void put_number(void (*put)(const uint8_t *bytes, size_t length), uint64_t number)
{
    uint8_t digits[20]; /* 2^64 - 1 has 20 */
    size_t first = sizeof digits;
    do {
        digits[--first] = (uint8_t)('0' + number % 10);
        number /= 10;
    } while (number > 0);
    put(digits + first, sizeof digits - first);
}

void print_number(uint64_t number)
{
    put_number(print_bytes, number);
}

void error_number(uint64_t number)
{
    put_number(error_bytes, number);
}

void print_hex(const uint8_t *bytes, size_t length)
{
    static const uint8_t digits[] = "0123456789abcdef";
    for (size_t i = 0; i < length; i++) {
        uint8_t pair[2] = {digits[bytes[i] / 16], digits[bytes[i] % 16]};
        print_bytes(pair, sizeof pair);
    }
}

_Noreturn void fail(int status, const char *sentence)
{
    if (output.held > 0)
        print_flush();
    error_text(sentence);
    error_text("\n");
    error_flush();
    exit(status);
}

/* ---- arguments -------------------------------------------------------- */

bool same_text(const char *one, const char *other)
{
    while (*one != '\0' && *one == *other) {
        one++;
        other++;
    }
    return *one == *other;
}

bool decimal(const char *text, uint64_t *number)
{
    uint64_t value = 0;
    if (*text == '\0')
        return false;
    for (; *text != '\0'; text++) {
        if (*text < '0' || *text > '9')
            return false;
        uint64_t digit = (uint64_t)(*text - '0');
        if (value > (UINT64_MAX - digit) / 10)
            return false;
        value = value * 10 + digit;
    }
    *number = value;
    return true;
}
