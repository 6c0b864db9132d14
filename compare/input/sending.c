/* Records as they are sent, and records that are refused. */
#include "sending.h"

#include "base/text.h"

#include <system.h>

/* ---- records as they are sent ----------------------------------------- */

static void make_record(struct sending *sending, uint8_t type, uint8_t *record)
{
    struct content content = generate_content_of(&sending->random, sending->count, type);
    generate_record(&sending->random, &content, record);
}

static void make_coded(struct sending *sending, uint8_t code, uint8_t second_code, uint8_t *record)
{
    struct content content = generate_content_with(&sending->random, sending->count, code, second_code);
    generate_record(&sending->random, &content, record);
}

static void skip(struct sending *sending, uint32_t counts)
{
    sending->count = (sending->count + counts) % COUNTS;
}

/* The earlier count is before those of the case that comes before in a file. */
void sending_begin(struct sending *sending, uint64_t seed, uint32_t count, uint8_t type)
{
    uint32_t earlier = (count + COUNTS - 3000) % COUNTS;
    *sending = (struct sending){.random = {seed}, .count = earlier, .type = type, .last_count = earlier};
    make_record(sending, type, sending->last);
    sending->count = count;
}

/* The record that was made. */
static void send_last(struct sending *sending)
{
    print_bytes(sending->last, GENERATE_RECORD);
    sending->last_count = sending->count;
    skip(sending, 1);
}

static void send(struct sending *sending, uint8_t type)
{
    make_record(sending, type, sending->last);
    send_last(sending);
}

void send_code(struct sending *sending, uint8_t code, uint8_t second_code)
{
    make_coded(sending, code, second_code, sending->last);
    send_last(sending);
}

void send_frames(struct sending *sending, uint32_t frames)
{
    for (; frames > 0; frames--) {
        send(sending, sending->type);
        sending->type = (sending->type + 1) % TYPES;
    }
}

void send_others(struct sending *sending, uint32_t frames)
{
    for (; frames > 0; frames--)
        send(sending, other_type(&sending->random));
}

/* "The 2 MSB of the Frame Code are set to 11" (000 section 2.1.4). */
void send_dumps(struct sending *sending, uint32_t frames)
{
    for (; frames > 0; frames--)
        send_code(sending, TOP_BIT | BIT_6 | 63, 0);
}

void send_half_bursts(struct sending *sending, uint8_t first, uint8_t last)
{
    for (uint8_t type = first; type <= last; type++)
        send_code(sending, type, 0);
}

void send_full_bursts(struct sending *sending, uint8_t first, uint8_t last)
{
    for (uint8_t type = first; type < last; type += 2)
        send_code(sending, TOP_BIT | type, (uint8_t)(type + 1));
}

/* After 55 come a MAG packet, a marker or the next snapshot. */
static uint8_t next_packet(struct sending *sending)
{
    struct random *random = &sending->random;
    uint8_t next = sending->packet < 36 || sending->packet > 54 ? 36 : (uint8_t)(sending->packet + 1);
    uint8_t type = random_once_in(random, 8) ? burst_type(random_below(random, BURST_TYPES)) : next;
    if (type <= 55)
        sending->packet = type;
    return random_once_in(random, 16) ? type | BIT_6 : type;
}

void send_any_burst(struct sending *sending)
{
    uint8_t code = next_packet(sending);
    if (random_once_in(&sending->random, 2))
        send_code(sending, code, 0);
    else
        send_code(sending, TOP_BIT | code, next_packet(sending));
}

void lose_frames(struct sending *sending, uint32_t frames)
{
    skip(sending, frames);
    sending->type = (uint8_t)((sending->type + frames) % TYPES);
}

void lose_others(struct sending *sending, uint32_t frames)
{
    skip(sending, frames);
}

void lose_letter(struct sending *sending, char letter)
{
    if (letter == 'f' || letter == 'F')
        lose_frames(sending, 1);
    else
        lose_others(sending, 1);
}

void send_letter(struct sending *sending, char letter)
{
    if (letter == 'f')
        send_frames(sending, 1);
    else if (letter == 'o')
        send_others(sending, 1);
    else
        lose_letter(sending, letter);
}

/* ---- records that are refused ----------------------------------------- */

/* The forms of rule 12: the last record once more, another one of its count, one delayed by a few
 * counts, from the turn before too, one of a lower count in the turn, not so low that it might be
 * a later one's, and one half a turn ahead of the last if none was lost, the first that isn't
 * later. */
enum { AGAIN, SAME_COUNT, DELAYED, LOWER, HALF_A_TURN, LATE_FORMS };

uint32_t forms_of(unsigned rule)
{
    return rule == LATE ? LATE_FORMS : spoil_forms(rule);
}

static uint32_t late_count(struct sending *sending, uint32_t form)
{
    uint32_t last = sending->last_count;
    uint32_t lowest = last > 8000000 ? last - 8000000 : 0;
    switch (form) {
    case DELAYED:
        return (last + COUNTS - random_between(&sending->random, 1, 40)) % COUNTS;
    case LOWER:
        return lowest + random_below(&sending->random, last - lowest + 1);
    case HALF_A_TURN:
        return (sending->count + AHEAD) % COUNTS;
    default:
        return last;
    }
}

static void break_rule(struct sending *sending, uint8_t *record, unsigned rule, uint32_t form)
{
    if (rule != LATE)
        spoil_form(&sending->random, record, rule, form);
    else if (form == AGAIN)
        memcpy(record, sending->last, GENERATE_RECORD);
    else
        generate_set_count(record, late_count(sending, form));
}

void print_refused(struct sending *sending, unsigned rule, uint32_t form)
{
    uint8_t record[GENERATE_LONGEST];
    make_record(sending, sending->type, record);
    break_rule(sending, record, rule, form);
    print_bytes(record, GENERATE_RECORD);
}

void print_of_count(struct sending *sending, uint32_t count)
{
    uint8_t record[GENERATE_RECORD];
    make_record(sending, sending->type, record);
    generate_set_count(record, count);
    print_bytes(record, GENERATE_RECORD);
}

void print_of_code(struct sending *sending, uint8_t code, uint8_t second_code)
{
    uint8_t record[GENERATE_RECORD];
    make_coded(sending, code, second_code, record);
    print_bytes(record, GENERATE_RECORD);
}

/* Rule 12 may put another record in place of this one, so it is broken first. */
void print_refused_twice(struct sending *sending, unsigned rule, unsigned also)
{
    uint8_t record[GENERATE_LONGEST];
    unsigned lower = rule < also ? rule : also;
    unsigned higher = rule < also ? also : rule;
    make_record(sending, sending->type, record);
    break_rule(sending, record, higher, random_below(&sending->random, forms_of(higher)));
    break_rule(sending, record, lower, random_below(&sending->random, forms_of(lower)));
    print_bytes(record, GENERATE_RECORD);
}
