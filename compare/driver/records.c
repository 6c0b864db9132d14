#include "records.h"

#include "base/text.h"
#include "lend.h"

#include <system.h>

/* ---- what they are read as -------------------------------------------- */

static bool finite(uint32_t bits)
{
    return (bits & 0x7F800000) != 0x7F800000;
}

/* 000, sections 2.1 and 2.4, a letter for each type: real-time, burst packets, undefined, other. */
static const char letters[] = "rrrrrrrrrrrrrrrrrrrrrrrrrrrrrrrrrrrrbbbbbbbbbbbbbbbbbbbbbbuuuubo";
_Static_assert(sizeof letters == 64 + 1, "there are 64 types");

uint8_t kind_of(uint8_t code, uint8_t second_code)
{
    switch (letters[code & 63]) {
    case 'r':
        return code & 63;
    case 'o':
        return LPMAG_OTHER;
    case 'u':
        return LPMAG_UNDEFINED;
    }
    if ((code & TOP_BIT) == 0)
        return LPMAG_HALF_BURST;
    return letters[second_code & 63] == 'b' ? LPMAG_FULL_BURST : LPMAG_UNDEFINED;
}

struct lpmag_fields fields_of(const struct content *content)
{
    uint8_t kind = kind_of(content->code, content->second_code);
    return (struct lpmag_fields){
        .count = content->count,
        .millisecond = content->millisecond,
        .level = content->level,
        .quality = content->quality,
        .day = content->day,
        .subcom = content->subcom,
        .first_flag = content->flags[0],
        .second_flag = content->flags[1],
        .third_flag = content->flags[2],
        .frame_code = content->code,
        .frame_type = content->code & 63,
        .kind = kind,
        .level_finite = finite(content->level),
        .quality_finite = finite(content->quality),
        .second_code = kind == LPMAG_FULL_BURST ? content->second_code : 0,
    };
}

/* `refusal` is the answer of check. */

/* ---- records ---------------------------------------------------------- */

void input_make(struct random *random, struct input *input, uint64_t count, uint8_t type)
{
    input->content = generate_content_of(random, (uint32_t)(count % ROUND), type);
    input->length = GENERATE_RECORD;
    generate_record(random, &input->content, input->record);
}

void input_make_coded(struct random *random, struct input *input, uint64_t count, uint8_t code,
                      uint8_t second_code)
{
    input->content = generate_content_with(random, (uint32_t)(count % ROUND), code, second_code);
    input->length = GENERATE_RECORD;
    generate_record(random, &input->content, input->record);
}

static struct packet packet_at(const struct input *input, uint8_t code, size_t at)
{
    return (struct packet){code & 63, (code & BIT_6) != 0, input->record + LPMAG_PACKET_AT + at};
}

size_t input_packets(const struct input *input, struct packet *packets)
{
    uint8_t code = input->content.code;
    if (!is_burst_type(code & 63))
        return 0;
    if ((code & TOP_BIT) == 0) {
        packets[0] = packet_at(input, code, 86);
        return 1;
    }
    packets[0] = packet_at(input, code, 3);
    packets[1] = packet_at(input, input->content.second_code, 86);
    return 2;
}

bool input_has_mag(const struct input *input)
{
    uint8_t code = input->content.code;
    return (code & 63) < TYPES || (is_burst_type(code & 63) && (code & TOP_BIT) == 0);
}

void input_spoil(struct random *random, struct input *input, unsigned rule)
{
    size_t length = spoil(random, input->record, rule);
    if (rule == 2)
        input->length = length;
}

void row_clear(struct row *row)
{
    row->count = 0;
    row->tail = 0;
}

void row_add(struct row *row, const struct input *input, uint8_t answer)
{
    if (row->count == MOST_IN_ROW || input->length != LPMAG_RECORD)
        fail(1, "compare: a record was added to a row that can't be in it");
    row->inputs[row->count] = *input;
    row->answers[row->count] = answer;
    memcpy(row->bytes + LPMAG_RECORD * row->count, input->record, LPMAG_RECORD);
    row->count++;
}

void row_end(struct random *random, struct row *row, size_t tail)
{
    row->tail = tail;
    random_fill(random, row->bytes + LPMAG_RECORD * row->count, tail);
}

size_t row_left(const struct row *row, size_t from)
{
    return LPMAG_RECORD * (row->count - from) + row->tail;
}

size_t row_part(struct random *random, const struct row *row, size_t from)
{
    static const size_t near[] = {0, 1, 471, 472, 473, 943, 944, LEND_BYTES};
    size_t part = LPMAG_RECORD * random_between(random, 1, 20);
    switch (random_below(random, 8)) {
    case 0:
        part = near[random_below(random, sizeof near / sizeof near[0])];
        break;
    case 1:
        part = random_below(random, LEND_BYTES);
        break;
    case 2:
    case 3:
        part += random_below(random, LPMAG_RECORD);
        break;
    }
    return part < row_left(row, from) ? part : row_left(row, from);
}

int16_t mag_number(const uint8_t *mag, size_t k)
{
    const uint8_t *three = mag + 1 + k / 2 * 3;
    int even = three[0] + 256 * (three[1] % 16);
    int odd = three[1] / 16 + 16 * three[2];
    return (int16_t)((k % 2 == 0 ? even : odd) - 2048);
}
