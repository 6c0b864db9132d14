/* What no program that reads the records can go below: they are read, and one byte of
 * each is looked at.
 *   floor [FILE] */
#include "input.h"

#include "../compare/base/text.h"

int main(int argc, char **argv)
{
    static struct input input;
    uint64_t found = 0;
    size_t length;
    begin_input(&input, argc > 1 ? argv[1] : NULL);
    while ((length = next_records(&input)) > 0)
        for (size_t at = 0; at < length; at += LPMAG_RECORD)
            found += input.bytes[at] == 0x1A; /* the sync's first */
    print_number(found);
    print_text(" records begin as the sync does\n");
    print_flush();
    return 0;
}
