#include "differ.h"

#include "base/text.h"

#include <system.h>

static void print_hex_line(const char *title, const void *bytes, size_t length)
{
    print_text(title);
    print_hex(bytes, length);
    print_text("\n");
}

static void print_number_line(const char *title, uint64_t number)
{
    print_text(title);
    print_number(number);
    print_text("\n");
}

/* The function and its input; the caller says what is wrong with the answers. */
static void print_question(const struct drive *drive, const struct question *question)
{
    print_text("difference in ");
    print_text(function_name(question->function));
    print_text(", while comparing ");
    print_text(drive->phase);
    print_text("\n");
    if (question->bytes == NULL && question->length == 0) {
        print_text("bytes: none\n");
    } else {
        print_number_line("length: ", question->length);
        print_hex_line("bytes: ", question->bytes, question->length);
    }
    for (size_t i = 0; i < QUESTION_ALSO && question->also[i].name != NULL; i++) {
        print_text(question->also[i].name);
        print_number_line(": ", question->also[i].number);
    }
    if (drive->state != NULL)
        print_hex_line("the state it has: ", drive->state, sizeof *drive->state);
}

_Noreturn static void stop(void)
{
    print_flush();
    fail(1, "compare: a difference was found");
}

void same_answer(struct drive *drive, const struct question *question, uint64_t first, uint64_t second)
{
    drive->calls[question->function]++;
    if (first == second)
        return;
    print_question(drive, question);
    print_number_line("first answers: ", first);
    print_number_line("second answers: ", second);
    stop();
}

void same_rooms(struct drive *drive, const struct question *question, const struct rooms *rooms, bool kept)
{
    if (kept)
        drive->kept_rooms++;
    const char *wrong = rooms_wrong(rooms, kept);
    if (wrong == NULL)
        return;
    size_t whole = rooms_whole(rooms);
    print_question(drive, question);
    print_text(wrong);
    print_text("\n");
    if (rooms->name != NULL) {
        print_text("the room is that of ");
        print_text(rooms->name);
        print_text("\n");
    }
    print_number_line("bytes in the room: ", rooms->length);
    print_number_line("bytes before it: ", rooms->at);
    print_number_line("bytes after it: ", LEND_GUARD);
    print_hex_line("as found: ", rooms->found.bytes, whole);
    print_hex_line("after the first: ", rooms->first.bytes, whole);
    print_hex_line("after the second: ", rooms->second.bytes, whole);
    stop();
}

static void print_numbers_line(const char *title, const uint64_t *numbers)
{
    print_text(title);
    for (size_t i = 0; i < RANGE_NUMBERS; i++) {
        print_text(i == 0 ? "" : " ");
        print_number(numbers[i]);
    }
    print_text("\n");
}

void same_ranges(struct drive *drive, const struct question *question, const struct ranges *ranges, bool kept)
{
    if (kept)
        drive->kept_ranges++;
    const char *wrong = ranges_wrong(ranges, kept);
    if (wrong == NULL)
        return;
    print_question(drive, question);
    print_text(wrong);
    print_text("\n(low and high are the second and the fourth number)\n");
    print_numbers_line("as found: ", ranges->found);
    print_numbers_line("after the first: ", ranges->first);
    print_numbers_line("after the second: ", ranges->second);
    stop();
}

void expect_answer(struct drive *drive, const struct question *question, uint64_t answer, uint64_t expected)
{
    if (answer == expected)
        return;
    print_question(drive, question);
    print_number_line("both answer: ", answer);
    print_number_line("but it has to be: ", expected);
    stop();
}

void expect_range(struct drive *drive, const struct question *question, const struct ranges *ranges,
                  uint64_t low, uint64_t high)
{
    if (ranges->first[LOW] == low && ranges->first[HIGH] == high)
        return;
    print_question(drive, question);
    print_number_line("both give the low: ", ranges->first[LOW]);
    print_number_line("both give the high: ", ranges->first[HIGH]);
    print_number_line("but the low has to be: ", low);
    print_number_line("and the high has to be: ", high);
    stop();
}

/* Where two that differ do so first. */
static size_t first_difference(const uint8_t *one, const uint8_t *other)
{
    size_t at = 0;
    while (one[at] == other[at])
        at++;
    return at;
}

void expect_bytes(struct drive *drive, const struct question *question, const char *what, const void *found,
                  const void *expected, size_t length)
{
    if (memcmp(found, expected, length) == 0)
        return;
    print_question(drive, question);
    print_text(what);
    print_text("\n");
    print_number_line("first at byte: ", first_difference(found, expected));
    print_hex_line("both have: ", found, length);
    print_hex_line("but it has to be: ", expected, length);
    stop();
}

void compare_answers(struct drive *drive, const struct question *question, const struct rooms *rooms,
                     uint8_t first, uint8_t second, uint8_t expected)
{
    same_answer(drive, question, first, second);
    same_rooms(drive, question, rooms, first != LPMAG_OK);
    expect_answer(drive, question, first, expected);
    drive->answers[question->function][first]++;
}
