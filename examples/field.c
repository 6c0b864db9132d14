/* The nominal field in nT as CSV, 18 vectors for each frame with MAG of a file or of standard input:
 *   cc -Iinclude examples/field.c target/staticlib/liblpmag.a -o field && ./field samples/stream.bin */
#include <inttypes.h>
#include <stdio.h>
#include "lpmag_reader.h"

static void print_vectors(uint64_t count, const struct lpmag_fields *of, const uint8_t *mag)
{
    int16_t samples[LPMAG_SAMPLES] = {0};
    uint8_t range = lpmag_samples(mag, LPMAG_MAG, samples, LPMAG_SAMPLES);
    for (size_t i = 0; i < LPMAG_SAMPLES; i += 3) {
        float x = 0, y = 0, z = 0;
        lpmag_field(samples[i], range, &x);
        lpmag_field(samples[i + 1], range, &y);
        lpmag_field(samples[i + 2], range, &z);
        printf("%" PRIu64 ",%u,%u,%zu,%.10g,%.10g,%.10g\n", count, of->day, of->millisecond, i / 3, x, y, z);
    }
}

int main(int argc, char **argv)
{
    struct lpmag_reader reader = {0}; /* a fresh one */
    uint8_t record[LPMAG_RECORD], words[LPMAG_WORDS] = {0};
    if (argc > 2 || (argc == 2 && freopen(argv[1], "rb", stdin) == NULL))
        return fprintf(stderr, "field: usage: field [FILE], a file that can be opened\n"), 1;
    printf("count,day,millisecond,vector,x,y,z\n");
    for (size_t length, n = 0; (length = fread(record, 1, LPMAG_RECORD, stdin)) > 0; n++) {
        uint8_t answer = lpmag_reader_step(&reader, record, length); /* a short last one is refused too */
        if (answer != LPMAG_OK) {
            lpmag_refusal_words(answer, words, LPMAG_WORDS);
            fprintf(stderr, "record %zu at byte %zu: refused with %d: %s\n", n, n * LPMAG_RECORD,
                    answer, words);
        } else if (reader.report.fields.kind <= 35 || reader.report.fields.kind == LPMAG_HALF_BURST) /* with MAG */
            print_vectors(reader.state.last /* full */, &reader.report.fields, record + LPMAG_PACKET_AT + LPMAG_MAG_AT);
    }
    if (ferror(stdin))
        return fprintf(stderr, "field: the file can't be read\n"), 1;
    if (fflush(stdout) != 0 || ferror(stdout))
        return fprintf(stderr, "field: the output can't be written\n"), 1;
}
