/* The second reader's record, its packet and its MAG bytes. Functions, papers and slices as in
 * lent.h; sizes and places are the papers'. */
#ifndef SECOND_RECORD_H
#define SECOND_RECORD_H

#include "lent.h"

/* Sizes and places, in bytes unless said otherwise. */
#define SECOND_RECORD 472    /* 002, RECORD_BYTES */
#define SECOND_PACKET 168    /* 002, MAG_ER_PACKET; 000 section 2 */
#define SECOND_PACKET_AT 286 /* 002, MAG_ER_PACKET; the label counts from 1 */
#define SECOND_MAG 82        /* 000 section 2.2 */
#define SECOND_MAG_AT 3      /* 000 section 2.1.1 */
#define SECOND_SAMPLES 54    /* numbers: 18 vectors of x, y, z; 000 section 2.2 */
#define SECOND_WORDS 80      /* room for the words of any refusal; the header's */

/* Where the first two bytes of the packet stand (000 section 2), and the "Record #2 Frame Code" of a
 * frame that has one (000 section 2.1.3). */
enum { SECOND_FRAME_CODE = 0, SECOND_DIGITAL_SUBCOM = 1, SECOND_RECORD_2_CODE = 85 };

/* The Frame Type is "the 6 LSB of the Frame Code" (000 section 2.1). */
static inline uint8_t second_frame_type(uint8_t frame_code)
{
    return frame_code % 64;
}

/* The header's version, 2.0, as 100 times the first number and the second. */
#define SECOND_VERSION 200
uint32_t second_version(void);

/* Numbers in bytes; 0 unless the number lies wholly in the bytes. */
uint16_t second_word16(const uint8_t *bytes, size_t length, size_t at);
uint32_t second_word24(const uint8_t *bytes, size_t length, size_t at);
uint32_t second_word32(const uint8_t *bytes, size_t length, size_t at);
uint16_t second_twelve_least(const uint8_t *bytes, size_t length, size_t k);
uint16_t second_twelve_most(const uint8_t *bytes, size_t length, size_t k);

/* The record: SECOND_OK, or the number of the first rule that fails, 1 being that the
 * room is of another size; unless SECOND_OK, what was lent stays as found. */
uint8_t second_check(const uint8_t *record, size_t length);
uint8_t second_fields(struct second_fields *fields, const uint8_t *record, size_t length);
uint8_t second_packet(const uint8_t *record, size_t length, uint8_t *room, size_t room_length);

/* The packet: 0 to 35, SECOND_HALF_BURST, SECOND_FULL_BURST, SECOND_OTHER or SECOND_UNDEFINED. */
uint8_t second_kind(const uint8_t *packet, size_t length);

/* The words of a refusal and a byte of 0, into a room of at least SECOND_WORDS bytes;
 * a smaller one stays as found. Answers how many bytes the words are, or 0. */
size_t second_refusal_words(uint8_t number, uint8_t *room, size_t room_length);

/* The magnetometer: the range 0 to 7 (second_field: SECOND_OK), or
 * SECOND_NO_SUCH_PLACE; then what was lent stays as found. */
uint8_t second_range(const uint8_t *mag, size_t length);
uint8_t second_samples(const uint8_t *mag, size_t length, int16_t *room, size_t room_length);
uint8_t second_field(int16_t sample, uint8_t range, float *field);

#endif
