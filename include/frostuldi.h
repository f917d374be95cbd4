/* Frostuldi: the proved arithmetic of vibration recorders, as C calls it. Link with libfrostuldi.a
 * (`rt lib --cpu x86-64` in crates/frostuldi writes out/libfrostuldi.a there, for x86-64 Linux).
 *
 * Every function takes whatever numbers and bytes it is handed, ends, and does the work or refuses with a number
 * of the table of refusals. `refusal` is 0 for done. A refusal answers the blank word (number 0, round bit 0, width 2,
 * unit 0), changes no byte of any lent buffer and no digit of a running sum. A unit is the exponent e of 2^e.
 *
 * What no proof covers: these declarations, the two functions whose bodies stand here, the stack, and a caller's
 * pointers. No call needs more than 64 KiB of stack. Each pointer must be valid for its length, aligned for its type,
 * and no buffer that is written may overlap another argument. A pointer with length 0 is not looked through, but must
 * not be null: lend any valid address.
 */
#ifndef FROSTULDI_H
#define FROSTULDI_H

#include <stddef.h>
#include <stdint.h>
#include <string.h>

#ifdef __cplusplus
extern "C" {
#endif

/* The version that this header declares, as 10000 * major + 100 * minor + patch. frost_version() tells the archive's. */
#define FROST_VERSION 30100

/* What `refusal` says. frost_refusal_text() has each in words. */
enum frost_refusal {
    FROST_DONE = 0,
    FROST_REFUSED_WIDTH = 1,
    FROST_REFUSED_UNIT = 2,
    FROST_REFUSED_NUMBER = 3,
    FROST_REFUSED_MISMATCH = 4,
    FROST_REFUSED_DEPTH = 5,
    FROST_REFUSED_WIDTH_PAST = 6,
    FROST_REFUSED_UNIT_PAST = 7,
    FROST_REFUSED_NUMBER_PAST = 8,
    FROST_REFUSED_DIGIT_TEXT = 9,
    FROST_REFUSED_BUFFER = 10,
    FROST_REFUSED_MARK = 11,
    FROST_REFUSED_FORM = 12,
    FROST_REFUSED_BYTE = 13,
    FROST_REFUSED_RUN = 14,
    FROST_REFUSED_NOT_FINITE = 15,
    FROST_REFUSED_CHANNEL = 17
};

/* The kind of a block's words. */
enum frost_kind { FROST_KIND_PLAIN = 0, FROST_KIND_ROUND_BIT = 1, FROST_KIND_HALF_UNIT = 2 };

/* Limits: widths and units of every word, widths and records of a file, widths of a reading and of a block sum, and what
 * a buffer must hold for the longest digit text, file and listing. */
enum frost_limit {
    FROST_LEAST_WIDTH = 2,
    FROST_MOST_WIDTH = 63,
    FROST_LEAST_UNIT = -127,
    FROST_MOST_UNIT = 127,
    FROST_MOST_FILE_WIDTH = 48,
    FROST_MOST_RECORDS = 8000,
    FROST_MOST_READING_WIDTH = 24,
    FROST_MOST_BLOCK_SUM_WIDTH = 48,
    FROST_LONGEST_DIGIT_TEXT = FROST_MOST_WIDTH,
    FROST_LONGEST_FILE = 12 + 7 * FROST_MOST_RECORDS,
    FROST_LONGEST_LISTING = 328019
};

/* The three kinds of word. Two kinds are two types, also where their fields are alike. A word of unit e is worth
 *   plain      number * 2^e
 *   round-bit  (number + round) * 2^e, round 0 or 1
 *   half-unit  (number + 1/2) * 2^e
 * and its number lies from -2^(width-1) to 2^(width-1) - 1. */
typedef struct { int64_t number; uint32_t width; int32_t unit; } frost_plain;
typedef struct { int64_t number; uint32_t width; int32_t unit; } frost_half_unit;
typedef struct { int64_t number; uint32_t width; int32_t unit; uint8_t round; } frost_round_bit;

typedef struct { frost_plain word; uint32_t refusal; } frost_plain_answer;
typedef struct { frost_half_unit word; uint32_t refusal; } frost_half_unit_answer;
typedef struct { frost_round_bit word; uint32_t refusal; } frost_round_bit_answer;

/* A running sum goes in by value and comes back in the answer. */
typedef struct { frost_round_bit kept; uint64_t depth; } frost_running_sum;
typedef struct { frost_running_sum sum; frost_round_bit word; uint32_t refusal; } frost_sum_answer;

/* A filter bank has four channels of eight taps, 12 wide, those of a channel of one unit. Its window has a sample for
 * each tap, 16 wide, all of one unit, which need not be the taps'. Both go in by value. */
typedef struct { frost_round_bit taps[8]; } frost_taps;
typedef struct { frost_taps channels[4]; } frost_bank;
typedef struct { frost_round_bit samples[8]; } frost_window;

/* `place` is that of the byte which a 13 or a 9 is for, counted from 0 at the most significant end, the first byte of
 * the text; 0 with every other answer, done too. */
typedef struct { frost_round_bit word; uint32_t refusal, place; } frost_text_answer;

typedef struct { uint32_t refusal, kind, width; int32_t unit; uint32_t count; } frost_file_head;
typedef struct { uint64_t bytes; uint32_t refusal; } frost_written;

/* A reading, for a plotting desk: the lowest, the highest and the first value of a run of a block's records, each a
 * whole count of half units, exactly. Zero is the positive zero. */
typedef struct { float lowest, highest, first; } frost_reading;
typedef struct { frost_reading reading; uint32_t refusal; } frost_reading_answer;

/* `index` is that of the first record which a 3 is for, counted from 0; 0 with every other answer, done too. */
typedef struct { frost_round_bit word; uint64_t index; uint32_t refusal; } frost_block_sum_answer;

/* The archive's own version: FROST_VERSION of the header that belongs to it. */
uint32_t frost_version(void);

/* A refusal in words, as the table has it; the answer is never null. */
static inline const char *frost_refusal_text(uint32_t refusal)
{
    switch (refusal) {
    case FROST_DONE: return "done";
    case FROST_REFUSED_WIDTH:
        return "a width is outside 2 to 63 (2 to 48 in a file and for a block sum, 2 to 24 for a reading)";
    case FROST_REFUSED_UNIT: return "a unit exponent is outside -127 to 127";
    case FROST_REFUSED_NUMBER:
        return "a number is outside its width, or a round bit is not 0 or 1, or a round byte in a block of kind 0 or 2 is "
               "not 0";
    case FROST_REFUSED_MISMATCH:
        return "a sum's operands, or a word and its running sum, differ in width or unit; or the taps of a filter bank's "
               "channel, or the samples of its window, differ in unit, or one of these taps is not 12 wide or a sample not "
               "16";
    case FROST_REFUSED_DEPTH:
        return "a cut, or a conversion with a depth, would leave fewer than 2 digits; or a running sum has, or is opened "
               "with, a depth of 0 or more than its width less 2";
    case FROST_REFUSED_WIDTH_PAST: return "the answer's width would pass 63";
    case FROST_REFUSED_UNIT_PAST:
        return "the answer's unit exponent, or that of the products of a filter bank's channel, would leave -127 to 127";
    case FROST_REFUSED_NUMBER_PAST:
        return "the answer's number, or that of any step of a block sum, does not fit its width";
    case FROST_REFUSED_DIGIT_TEXT:
        return "a digit text has two nonzero digits of one sign with nothing or only zeros between them";
    case FROST_REFUSED_BUFFER: return "a lent buffer is too short for what would be written";
    case FROST_REFUSED_MARK: return "a file's mark or version is wrong";
    case FROST_REFUSED_FORM:
        return "a file's length, kind or count is wrong; or a reading's kind is, or the numbers and round bits of a "
               "reading or a block sum are of unlike lengths";
    case FROST_REFUSED_BYTE: return "a digit text has a byte that is not `+`, `0` or `-`";
    case FROST_REFUSED_RUN: return "a reading's run of records is empty or passes the end of the block";
    case FROST_REFUSED_NOT_FINITE: return "a binary64 sample is an infinity or a not-a-number";
    case FROST_REFUSED_CHANNEL: return "the channel that a filter bank is asked for is over 3";
    default: return "no refusal has this number";
    }
}

/* Round-bit words. All refuse 1, 2, 3 of each operand first; then as said. A cut by 1 or more drops the old round bit; an
 * even cut goes by the value, number + round, to the nearest count of new units, and halfway between two to the even one.
 * Cuts and sign changes may be mixed. As long as no call is refused they end in the word of one cut by all depths together,
 * followed by a sign change if their number was odd; some call is refused exactly if that cut would be. Look at the refusal
 * of every call: what is asked of the blank word that a refused one answers may well be done. */
frost_round_bit_answer frost_round_bit_sign_change(frost_round_bit w);
frost_round_bit_answer frost_round_bit_cut(frost_round_bit w, uint64_t depth);      /* 5, 7 */
frost_round_bit_answer frost_round_bit_rest(frost_round_bit w, uint64_t depth);     /* 5, 7 */
frost_round_bit_answer frost_round_bit_even_cut(frost_round_bit w, uint64_t depth); /* 5, 7 */
frost_round_bit_answer frost_round_bit_widen(frost_round_bit w, uint64_t depth);    /* 6, 7 */
frost_round_bit_answer frost_round_bit_sum(frost_round_bit x, frost_round_bit y);        /* 4, 8 */
frost_round_bit_answer frost_round_bit_difference(frost_round_bit x, frost_round_bit y); /* 4, 8 */
frost_round_bit_answer frost_round_bit_product(frost_round_bit x, frost_round_bit y);    /* 6, 7 */
frost_plain_answer frost_round_bit_to_plain(frost_round_bit w);                     /* 8 */
frost_round_bit_answer frost_round_bit_from_plain(frost_plain w);

/* Half-unit words. All refuse 1, 2, 3 of each operand first; then as said. Cuts and sign changes may be mixed as above. */
frost_half_unit_answer frost_half_unit_sign_change(frost_half_unit w);
frost_half_unit_answer frost_half_unit_cut(frost_half_unit w, uint64_t depth);         /* 5, 7 */
frost_half_unit_answer frost_half_unit_from_plain_up(frost_plain w, uint64_t depth);   /* 5, 7 */
frost_half_unit_answer frost_half_unit_from_plain_even(frost_plain w, uint64_t depth); /* 5, 7 */
frost_plain_answer frost_half_unit_to_plain(frost_half_unit w);                     /* 6, 7 */
frost_round_bit_answer frost_half_unit_to_round_bit(frost_half_unit w);             /* 6, 7 */
frost_half_unit_answer frost_half_unit_from_round_bit(frost_round_bit w);           /* 6, 7 */
frost_half_unit_answer frost_half_unit_sum_up(frost_half_unit x, frost_half_unit y);   /* 4, 8 */
frost_half_unit_answer frost_half_unit_sum_even(frost_half_unit x, frost_half_unit y); /* 4, 8 */
frost_half_unit_answer frost_half_unit_product(frost_half_unit x, frost_half_unit y);  /* 6, 7 */

/* Samples of a digitiser, by the 64 bits of an IEEE 754 binary64, imported to a word of this width and unit. Plain and
 * round-bit: the nearest whole count of units, a tie to the even count, round bit 0. Half-unit: the nearest half-odd
 * count, a tie to the one whose number has its lowest digit clear, so both zeros are 0. It refuses, in this order,
 *   1, 2  a width or a unit outside its range;
 *   15    an infinity or a not-a-number;
 *   8     a number that does not fit the width, after rounding. */
frost_plain_answer frost_plain_from_binary64(uint64_t bits, uint32_t width, int32_t unit);
frost_round_bit_answer frost_round_bit_from_binary64(uint64_t bits, uint32_t width, int32_t unit);
frost_half_unit_answer frost_half_unit_from_binary64(uint64_t bits, uint32_t width, int32_t unit);

/* The bits of a double, for callers who hold one: here a double is a binary64. */
static inline uint64_t frost_binary64_bits(double value)
{
    uint64_t bits;
    memcpy(&bits, &value, sizeof bits);
    return bits;
}

/* The running sum. A refused opening gives a sum that keeps the blank word at depth 0. An opening and a put hand
 * back no word: theirs is the blank one. */
frost_sum_answer frost_running_sum_open(uint32_t width, int32_t unit, uint64_t depth); /* 1, 2, 5, 7 */
frost_sum_answer frost_running_sum_put(frost_running_sum s, frost_round_bit w); /* 1, 2, 3 of both, 4, 5, 7, 8 */
frost_sum_answer frost_running_sum_hand_out(frost_running_sum s);               /* 1, 2, 3, 5, 7 */
frost_sum_answer frost_running_sum_empty(frost_running_sum s);                  /* 1, 2, 3, 5, 7 */

/* The filter bank: one channel's output. The product of each tap with its sample, extended on the left to width 31, is
 * added from tap 0 up, and the sum is cut by 11. So the output is 20 wide, and its unit the taps', the samples' and 11
 * added. It refuses, in this order,
 *   17       a channel over 3;
 *   1, 2, 3  of that channel's taps, tap by tap, then of the samples, sample by sample;
 *   4        taps of unlike units, samples of unlike units, a tap that is not 12 wide, a sample that is not 16 wide;
 *   7        a unit of the products, or of the output, outside its range.
 * The other channels' taps are not looked at. 8 never occurs. */
frost_round_bit_answer frost_bank_output(frost_bank bank, frost_window window, uint32_t channel);

/* Digit texts: `width` bytes, most significant first; the count of bytes written, 0 when refused. Reading refuses, in
 * this order,
 *   1   a length that is no width;
 *   2   a unit outside its range;
 *   13  a byte that is not `+`, `0` or `-`: the place is that of the leftmost;
 *   9   repeated signs: the place is that of the leftmost sign that repeats the sign before it. */
frost_written frost_digit_text_write(frost_round_bit w, uint8_t *text, size_t room); /* 1, 2, 3, 10 */
frost_text_answer frost_digit_text_read(const uint8_t *text, size_t length, int32_t unit);

/* Block files: reading fills the first `count` places of both buffers; refused, kind, width, unit and count are 0,
 * 2, 0 and 0. A file of version 1 has widths 2 to 32 and 5 bytes a record, one of version 2 widths 33 to 48 and 7 bytes
 * a record: the width decides which is written, and 1 refuses a file of the other. Reading refuses 12, 11, 12, 1, 2, 3,
 * 10 in this order, writing 12, 1, 2, 3, 10. */
frost_file_head frost_file_read(const uint8_t *file, size_t length, int64_t *numbers, size_t numbers_room,
                                uint8_t *rounds, size_t rounds_room);
frost_written frost_file_write(uint32_t kind, uint32_t width, int32_t unit, const int64_t *numbers,
                               size_t numbers_length, const uint8_t *rounds, size_t rounds_length, uint8_t *file,
                               size_t room);

/* The reading of the run of `length` records from record `first` on. It needs no unit and takes any number of records.
 * It refuses, in this order,
 *   12  a kind over 2, or unlike lengths of numbers and round bits;
 *   1   a width outside 2 to 24;
 *   14  a run that is empty or passes the end of the block, whatever `first` and `length` are;
 *   3   a record of the run. Records outside the run are not looked at.
 * A refusal answers three positive zeros. */
frost_reading_answer frost_reading_of_run(uint32_t kind, uint32_t width, const int64_t *numbers, size_t numbers_length,
                                          const uint8_t *rounds, size_t rounds_length, size_t first, size_t length);

/* The sum of a block of round-bit records, all of this width and unit, and as many as there are. The block is split in
 * the middle, the smaller half first where its length is odd; each half is summed in its turn in the same way, and then
 * the two sums are added. A block without records gives (0,0), a block of one record that record. Where no step of it is
 * refused, the records give the same word in any other grouping or order in which none is. It refuses, in this order,
 *   12  unlike lengths of numbers and round bits;
 *   1   a width outside 2 to 48;
 *   2   a unit outside its range;
 *   3   a record: every one is looked at before anything is added;
 *   8   a step whose number does not fit the width, also where the whole sum's would. */
frost_block_sum_answer frost_block_sum(uint32_t width, int32_t unit, const int64_t *numbers, size_t numbers_length,
                                       const uint8_t *rounds, size_t rounds_length);

/* The listing of a file as text. A refused file is text, `refused N`; the call itself refuses 10 alone. No listing is
 * longer than FROST_LONGEST_LISTING bytes; in less room than that the text is counted before it is written, which takes longer. */
frost_written frost_listing_text(const uint8_t *file, size_t length, uint8_t *text, size_t room);

#ifdef __cplusplus
}
#endif

#endif
