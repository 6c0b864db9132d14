/* The second implementation of single records as a program: `print` lists the fields of each record
 * that comes from standard input. */
#include "base/text.h"
#include "record.h"

#include <system.h>

/* Reads until the room is full or the input ends; answers how much it read. A
 * read may give less than it is asked for. */
static size_t read_all(uint8_t *room, size_t length)
{
    size_t held = 0;
    while (held < length) {
        long got = read(STANDARD_INPUT, room + held, length - held);
        if (got < 0)
            fail(1, "standard input can't be read");
        if (got == 0)
            break;
        held += (size_t)got;
    }
    return held;
}

/* ---- the listing ------------------------------------------------------ */

static void print_column(uint64_t number)
{
    print_text(" ");
    print_number(number);
}

static void print_reading(uint8_t finite, uint32_t bits)
{
    const uint8_t bytes[4] = {(uint8_t)(bits >> 24), (uint8_t)(bits >> 16), (uint8_t)(bits >> 8),
                              (uint8_t)bits};
    print_text(finite ? " finite:" : " not-finite:");
    print_hex(bytes, sizeof bytes);
}

static const char *kind_name(uint8_t kind)
{
    switch (kind) {
    case SECOND_HALF_BURST:
        return " half-burst";
    case SECOND_FULL_BURST:
        return " full-burst";
    case SECOND_OTHER:
        return " other";
    default:
        return " real-time";
    }
}

static void print_fields(const struct second_fields *fields)
{
    print_column(fields->count);
    print_column(fields->day);
    print_column(fields->millisecond);
    print_column(fields->first_flag);
    print_number(fields->second_flag);
    print_number(fields->third_flag);
    print_column(fields->frame_code);
    print_column(fields->frame_type);
    print_text(kind_name(fields->kind));
    print_column(fields->second_code);
    print_column(fields->subcom);
    print_reading(fields->level_finite, fields->level);
    print_reading(fields->quality_finite, fields->quality);
}

static void print_listing(void)
{
    uint8_t record[SECOND_RECORD];
    struct second_fields fields = {0};
    size_t length;
    print_text("record answer count day millisecond flags code type kind second subcom level quality\n");
    for (uint64_t number = 0; (length = read_all(record, sizeof record)) > 0; number++) {
        print_number(number);
        uint8_t refusal = second_fields(&fields, record, length);
        if (refusal == SECOND_OK) {
            print_text(" passes");
            print_fields(&fields);
        } else {
            print_text(" refused");
            print_column(refusal);
        }
        print_text("\n");
    }
}

/* ---- the program ------------------------------------------------------ */

int main(int argc, char **argv)
{
    (void)argv;
    if (argc > 1)
        fail(2, "usage: print lists the records of standard input");
    print_listing();
    print_flush();
    return 0;
}
