/* The measured calls, as include/frostuldi.h has them, under the name of who answers: `frost`, `peer`, `second`. */
#ifndef CALLS_H
#define CALLS_H

#include "frostuldi.h"

#define JOIN(a, b) JOIN_EXPANDED(a, b)
#define JOIN_EXPANDED(a, b) a##_##b

#define DECLARE(who)                                                                                                  \
    frost_round_bit_answer JOIN(who, round_bit_sum)(frost_round_bit x, frost_round_bit y);                            \
    frost_round_bit_answer JOIN(who, round_bit_cut)(frost_round_bit w, uint64_t depth);                               \
    frost_round_bit_answer JOIN(who, round_bit_even_cut)(frost_round_bit w, uint64_t depth);                          \
    frost_round_bit_answer JOIN(who, round_bit_product)(frost_round_bit x, frost_round_bit y);                        \
    frost_sum_answer JOIN(who, running_sum_open)(uint32_t width, int32_t unit, uint64_t depth);                       \
    frost_sum_answer JOIN(who, running_sum_put)(frost_running_sum s, frost_round_bit w);                              \
    frost_sum_answer JOIN(who, running_sum_hand_out)(frost_running_sum s);                                            \
    frost_round_bit_answer JOIN(who, bank_output)(frost_bank bank, frost_window window, uint32_t channel);            \
    frost_plain_answer JOIN(who, plain_from_binary64)(uint64_t bits, uint32_t width, int32_t unit);                   \
    frost_half_unit_answer JOIN(who, half_unit_from_binary64)(uint64_t bits, uint32_t width, int32_t unit);           \
    frost_written JOIN(who, digit_text_write)(frost_round_bit w, uint8_t *text, size_t room);                         \
    frost_text_answer JOIN(who, digit_text_read)(const uint8_t *text, size_t length, int32_t unit);                   \
    frost_file_head JOIN(who, file_read)(const uint8_t *file, size_t length, int64_t *numbers, size_t numbers_room,   \
                                         uint8_t *rounds, size_t rounds_room);                                        \
    frost_written JOIN(who, file_write)(uint32_t kind, uint32_t width, int32_t unit, const int64_t *numbers,          \
                                        size_t numbers_length, const uint8_t *rounds, size_t rounds_length,           \
                                        uint8_t *file, size_t room);                                                  \
    frost_reading_answer JOIN(who, reading_of_run)(uint32_t kind, uint32_t width, const int64_t *numbers,             \
                                                   size_t numbers_length, const uint8_t *rounds,                      \
                                                   size_t rounds_length, size_t first, size_t length);                \
    frost_block_sum_answer JOIN(who, block_sum)(uint32_t width, int32_t unit, const int64_t *numbers,                 \
                                                size_t numbers_length, const uint8_t *rounds, size_t rounds_length);  \
    frost_written JOIN(who, listing_text)(const uint8_t *file, size_t length, uint8_t *text, size_t room)

#endif
