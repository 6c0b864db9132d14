#include "input.h"

#include "../compare/base/text.h"

#include <stdbool.h>
#include <system.h>

void begin_input(struct input *input, const char *name)
{
    input->file = name == NULL ? STANDARD_INPUT : open(name, O_RDONLY);
    input->held = 0;
    input->given = 0;
    if (input->file < 0)
        fail(1, "bench: the input can't be opened");
}

/* One read; a pipe may give less than is asked for. Answers false at the end. */
static bool read_once(struct input *input)
{
    long got = read(input->file, input->bytes + input->held, sizeof input->bytes - input->held);
    if (got < 0)
        fail(1, "bench: the input can't be read");
    input->held += (size_t)got;
    return got > 0;
}

size_t next_records(struct input *input)
{
    /* What is left is less than a record, so that it isn't laid over itself. */
    input->held -= input->given;
    if (input->given > 0)
        memcpy(input->bytes, input->bytes + input->given, input->held);

    while (input->held < LPMAG_RECORD && read_once(input))
        ;
    input->given = input->held < LPMAG_RECORD ? input->held : input->held - input->held % LPMAG_RECORD;
    return input->given;
}
