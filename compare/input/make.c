/* Writes records made from a seed to standard output, for programs to list.
 *   make STREAM [SEED [NUMBER]]        a sample, or a stream of anything; one of many
 *   make many N [SEED]                 a stream of N good records
 *   make KIND [SEED [NUMBER [COUNT]]]  all cases of a kind; one alone, from a count of its own or that
 *   make number KIND                   how many cases there are
 *   make case COUNT                    which one has that count */
#include "base/text.h"
#include "cases.h"
#include "records.h"
#include "samples.h"
#include "streams.h"

static const struct {
    const char *name;
    void (*print)(uint64_t seed);
} streams[] = {
    {"example", print_example},   {"records", print_records},   {"stream", print_stream},
    {"refusals", print_refusals}, {"turn", print_turn},         {"bursts", print_bursts},
    {"any", print_any},           {"repeated", print_repeated}, {"spoiled", print_spoiled},
    {"random", print_random},     {"climb", print_climb},
};
enum { STREAMS = sizeof streams / sizeof streams[0] };

static _Noreturn void refuse(void)
{
    fail(2, "usage: make example|records|stream|refusals|turn|bursts|any|repeated|spoiled|random|climb "
            "[SEED [NUMBER]]; make many N [SEED]; make cuts|refused|pairs|joins|packets [SEED [NUMBER "
            "[COUNT]]]; make number cuts|refused|pairs|joins|packets; make case COUNT; all numbers decimal "
            "and below 2^64, a record's count below 2^24");
}

/* The number at a place among the arguments; if they end before it, the one given. */
static uint64_t number_at(int argc, char **argv, int place, uint64_t otherwise)
{
    uint64_t number = otherwise;
    if (place < argc && !decimal(argv[place], &number))
        refuse();
    return number;
}

/* Answers false if there is no stream of that name. */
static bool make_stream(int argc, char **argv)
{
    for (size_t i = 0; i < STREAMS; i++)
        if (argc <= 4 && same_text(argv[1], streams[i].name)) {
            streams[i].print(number_at(argc, argv, 2, GENERATE_SEED) + number_at(argc, argv, 3, 0));
            return true;
        }
    return false;
}

/* Answers false if there are no cases of that name. */
static bool make_cases(int argc, char **argv)
{
    const struct cases *cases = cases_named(argv[1]);
    if (argc > 5 || cases == NULL)
        return false;
    uint64_t seed = number_at(argc, argv, 2, GENERATE_SEED);
    uint64_t which = number_at(argc, argv, 3, 0);
    uint64_t count = number_at(argc, argv, 4, count_of_case((uint32_t)which));
    if (which >= cases->number() || count >= COUNTS)
        refuse();
    if (argc > 3)
        print_case(cases, seed, (uint32_t)which, (uint32_t)count);
    else
        print_cases(cases, seed);
    return true;
}

/* What is known of the cases: a line with a number. */
static bool say(int argc, char **argv)
{
    if (argc != 3)
        return false;
    const struct cases *cases = cases_named(argv[2]);
    if (same_text(argv[1], "number") && cases != NULL)
        print_number(cases->number());
    else if (same_text(argv[1], "case"))
        print_number(case_of_count(number_at(argc, argv, 2, 0)));
    else
        return false;
    print_text("\n");
    return true;
}

int main(int argc, char **argv)
{
    if (argc < 2)
        refuse();
    if (same_text(argv[1], "many") && (argc == 3 || argc == 4))
        print_many(number_at(argc, argv, 3, GENERATE_SEED), number_at(argc, argv, 2, 0));
    else if (!make_stream(argc, argv) && !make_cases(argc, argv) && !say(argc, argv))
        refuse();
    print_flush();
    return 0;
}
