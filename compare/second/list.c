/* The second implementation as the whole program: lists the records of the files
 * named, their bytes laid end to end, or of standard input if none is named.
 *   list [-v] [FILE]...  with -v each refused record is told on standard error
 *   list -h              says so */
#include "base/text.h"
#include "listing.h"
#include "record.h"

#include <system.h>

/* Bytes that were read and aren't listed yet. A record may lie in several reads, and
 * across the end of a file. */
enum { RECORDS_OF_A_READ = 256 };

struct input {
    size_t held;
    uint8_t bytes[RECORDS_OF_A_READ * SECOND_RECORD];
};

/* Lists the whole records. The rest is less than one, so that there is room to read,
 * and moving it to the front doesn't lay it over itself. */
static void list_records(struct second_listing *listing, struct input *input)
{
    size_t listed = 0;
    for (; input->held - listed >= SECOND_RECORD; listed += SECOND_RECORD)
        second_listing_record(listing, input->bytes + listed, SECOND_RECORD);
    if (listed == 0)
        return;
    input->held -= listed;
    memcpy(input->bytes, input->bytes + listed, input->held);
}

/* Answers false when the file can't be read to its end. */
static bool list_file(struct second_listing *listing, struct input *input, int file)
{
    long got;
    while ((got = read(file, input->bytes + input->held, sizeof input->bytes - input->held)) > 0) {
        input->held += (size_t)got;
        list_records(listing, input);
    }
    return got == 0;
}

/* Answers what is wrong with the file, or null. */
static const char *list_named(struct second_listing *listing, struct input *input, const char *name)
{
    int file = open(name, O_RDONLY);
    if (file < 0)
        return "can't be opened";
    bool read_to_its_end = list_file(listing, input, file);
    close(file);
    return read_to_its_end ? NULL : "can't be read";
}

/* Ends the input at the first file that something is wrong with; answers the status
 * of the program. The names end with a null. */
static int list(bool telling, char **names)
{
    static struct second_listing listing;
    static struct input input;
    const char *name = "standard input";
    const char *wrong = NULL;

    second_listing_begin(&listing, telling);
    if (*names == NULL && !list_file(&listing, &input, STANDARD_INPUT))
        wrong = "can't be read";
    for (; *names != NULL && wrong == NULL; names++) {
        name = *names;
        wrong = list_named(&listing, &input, name);
    }
    if (input.held > 0) /* "A short tail of the input is one record" */
        second_listing_record(&listing, input.bytes, input.held);
    second_listing_end(&listing);

    if (wrong != NULL) {
        error_text(name);
        error_text(" ");
        error_text(wrong);
        error_text("\n");
    }
    return wrong == NULL ? 0 : 1;
}

#define USAGE                                                                                    \
    "usage: list [-v] [FILE]... lists the records of the files, laid end to end, or of standard " \
    "input; with -v each refused record is told on standard error"

int main(int argc, char **argv)
{
    int status = 0;
    if (argc > 1 && same_text(argv[1], "-v"))
        status = list(true, argv + 2);
    else if (argc > 1 && same_text(argv[1], "-h"))
        print_text(USAGE "\n");
    else if (argc > 1 && argv[1][0] == '-')
        fail(2, USAGE);
    else
        status = list(false, argv + (argc > 0));
    print_flush();
    error_flush();
    return status;
}
