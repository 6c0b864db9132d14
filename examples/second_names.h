/* Included before a program when it is built over the second implementation of compare/,
 * whose functions are those of lpmag.h under another prefix. (lpmag_fields is a struct's
 * name too: it is renamed with the function, which changes nothing.) */
#ifndef SECOND_NAMES_H
#define SECOND_NAMES_H

#define lpmag_version second_version
#define lpmag_word16 second_word16
#define lpmag_word24 second_word24
#define lpmag_word32 second_word32
#define lpmag_twelve_least second_twelve_least
#define lpmag_twelve_most second_twelve_most
#define lpmag_check second_check
#define lpmag_fields second_fields
#define lpmag_packet second_packet
#define lpmag_kind second_kind
#define lpmag_refusal_words second_refusal_words
#define lpmag_range second_range
#define lpmag_samples second_samples
#define lpmag_field second_field
#define lpmag_burst_range second_burst_range
#define lpmag_burst_samples second_burst_samples
#define lpmag_lay_electrons second_lay_electrons
#define lpmag_cell second_cell
#define lpmag_bin_samples second_bin_samples
#define lpmag_electron_sample second_electron_sample
#define lpmag_three_d second_three_d
#define lpmag_total second_total
#define lpmag_rate second_rate
#define lpmag_count_range second_count_range
#define lpmag_count_sum second_count_sum
#define lpmag_angle second_angle
#define lpmag_step second_step
#define lpmag_feed second_feed
#define lpmag_finish second_finish
#define lpmag_major_word second_major_word
#define lpmag_major_sample second_major_sample
#define lpmag_major_field second_major_field
#define lpmag_snapshot_byte second_snapshot_byte
#define lpmag_snapshot_three_d second_snapshot_three_d
#define lpmag_snapshot_pitch second_snapshot_pitch
#define lpmag_snapshot_total second_snapshot_total
#define lpmag_snapshot_rate second_snapshot_rate
#define lpmag_snapshot_angle second_snapshot_angle

#endif
