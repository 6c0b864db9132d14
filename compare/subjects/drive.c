/* Compares the first implementation, the library behind include/lpmag.h, with
 * the second: `drive [SEED]`. Ends with status 1 at the first difference. */
#include "base/text.h"
#include "driver/met.h"
#include "input/generate.h"
#include "subjects.h"

int main(int argc, char **argv)
{
    uint64_t seed = GENERATE_SEED;
    if (argc > 2 || (argc == 2 && !decimal(argv[1], &seed)))
        fail(2, "usage: drive [SEED], the seed a decimal number below 2^64");
    print_text("seed ");
    print_number(seed);
    print_text("\n");

    static struct drive drive;
    drive.random.state = seed;
#define COMPARED(subject) drive_##subject(&drive);
    SUBJECTS(COMPARED)

    print_all_met(&drive);
    print_text("compare: all equal\n");
    print_flush();
    return 0;
}
