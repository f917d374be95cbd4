/* The layout of frostuldi.h's structs, as the library was compiled: 64-bit Linux, each struct as `#[repr(C)]` has it. */
#include "frostuldi.h"

#define SIZE(type, bytes) _Static_assert(sizeof(type) == (bytes), "size of " #type)
#define AT(type, field, place) _Static_assert(offsetof(type, field) == (place), "place of " #type "." #field)

SIZE(frost_plain, 16);
AT(frost_plain, number, 0);
AT(frost_plain, width, 8);
AT(frost_plain, unit, 12);
SIZE(frost_half_unit, 16);
AT(frost_half_unit, number, 0);
AT(frost_half_unit, width, 8);
AT(frost_half_unit, unit, 12);
SIZE(frost_round_bit, 24);
AT(frost_round_bit, number, 0);
AT(frost_round_bit, width, 8);
AT(frost_round_bit, unit, 12);
AT(frost_round_bit, round, 16);
SIZE(frost_plain_answer, 24);
AT(frost_plain_answer, word, 0);
AT(frost_plain_answer, refusal, 16);
SIZE(frost_half_unit_answer, 24);
AT(frost_half_unit_answer, word, 0);
AT(frost_half_unit_answer, refusal, 16);
SIZE(frost_round_bit_answer, 32);
AT(frost_round_bit_answer, word, 0);
AT(frost_round_bit_answer, refusal, 24);
SIZE(frost_running_sum, 32);
AT(frost_running_sum, kept, 0);
AT(frost_running_sum, depth, 24);
SIZE(frost_sum_answer, 64);
AT(frost_sum_answer, sum, 0);
AT(frost_sum_answer, word, 32);
AT(frost_sum_answer, refusal, 56);
SIZE(frost_taps, 192);
AT(frost_taps, taps, 0);
SIZE(frost_bank, 768);
AT(frost_bank, channels, 0);
SIZE(frost_window, 192);
AT(frost_window, samples, 0);
SIZE(frost_text_answer, 32);
AT(frost_text_answer, word, 0);
AT(frost_text_answer, refusal, 24);
AT(frost_text_answer, place, 28);
SIZE(frost_file_head, 20);
AT(frost_file_head, refusal, 0);
AT(frost_file_head, kind, 4);
AT(frost_file_head, width, 8);
AT(frost_file_head, unit, 12);
AT(frost_file_head, count, 16);
SIZE(frost_written, 16);
AT(frost_written, bytes, 0);
AT(frost_written, refusal, 8);
SIZE(frost_reading, 12);
AT(frost_reading, lowest, 0);
AT(frost_reading, highest, 4);
AT(frost_reading, first, 8);
SIZE(frost_reading_answer, 16);
AT(frost_reading_answer, reading, 0);
AT(frost_reading_answer, refusal, 12);
SIZE(frost_block_sum_answer, 40);
AT(frost_block_sum_answer, word, 0);
AT(frost_block_sum_answer, index, 24);
AT(frost_block_sum_answer, refusal, 32);
