/* The work that every peer is given, and where it leaves its answers. */
#ifndef WORK_H
#define WORK_H

#include "frostuldi.h"
#include "rules.h"

enum {
    /* As many words in one work as records, so that a turn of each row does as many pieces. */
    MOST_WORDS = MOST_RECORDS,
    /* A running sum that libfixmath has as well: 16 digits before the point and 16 behind it, cut at the point. */
    SUM_WIDTH = 32,
    SUM_UNIT = -16,
    SUM_DEPTH = 16,
    /* No bank comes round to the same window in as many outputs as there are words. */
    BANKS = 64,
    WINDOWS = 1000,
    /* Odd widths go so far past the most. */
    WIDTHS_PAST = 2,
    /* The longest block that is summed, and the most digits of its numbers: a million of them add up in 46 digits, in
     * whatever order, and the widest words have 47 and a sign. */
    MOST_SUMMED = 1000000,
    SUMMED_DIGITS = 26,
};

/* With room for the odd ones, which may be too long. */
struct text {
    size_t length;
    int32_t unit;
    uint8_t bytes[MOST_WIDTH + WIDTHS_PAST];
};

/* A word whose digit text is written, and the room that is lent for it. */
struct writing {
    frost_round_bit word;
    size_t room;
};

/* A sample that is imported, by its bits, and the format of the word that it becomes. */
struct import {
    uint64_t bits;
    uint32_t width;
    int32_t unit;
};

/* A block that a reading is taken of, and which of its records. */
struct run {
    uint32_t kind, width;
    size_t numbers_count, rounds_count, first, length;
    int64_t numbers[MOST_RECORDS];
    uint8_t rounds[MOST_RECORDS];
};

/* A block that is summed. */
struct summed {
    uint32_t width;
    int32_t unit;
    size_t numbers_count, rounds_count;
    int64_t numbers[MOST_SUMMED];
    uint8_t rounds[MOST_SUMMED];
};

/* Formats, depths and rooms stand here and not as constants in the loops: a check that the compiler can decide is not
 * the same check. */
struct work {
    int words;
    frost_round_bit first[MOST_WORDS], second[MOST_WORDS];
    uint64_t depths[MOST_WORDS];
    uint32_t sum_width;
    int32_t sum_unit;
    uint64_t sum_depth;
    frost_round_bit samples[MOST_WORDS];
    frost_bank banks[BANKS];
    frost_window windows[WINDOWS];
    uint32_t channels[MOST_WORDS];
    struct text texts[MOST_WORDS];
    struct writing writings[MOST_WORDS];
    uint32_t kind, width;
    int32_t unit;
    size_t numbers_count, rounds_count;
    int64_t numbers[MOST_RECORDS];
    uint8_t rounds[MOST_RECORDS];
    size_t length;
    uint8_t file[LONGEST_FILE];
    /* The first text room is enough for any listing; the second is less than that. */
    size_t numbers_room, rounds_room, file_room, text_room, little_text_room;
    struct run run;
    struct import imports[MOST_WORDS];
    struct summed summed;
};

/* A digit text that was written. The bytes behind it, lent or not, must stay. */
struct written_text {
    frost_written written;
    uint8_t bytes[MOST_WIDTH + WIDTHS_PAST];
};

/* What the loops answer; each leaves the places of the others as they were. */
struct answers {
    frost_round_bit_answer words[MOST_WORDS];
    frost_running_sum sums[MOST_WORDS];
    struct written_text written_texts[MOST_WORDS];
    frost_text_answer texts[MOST_WORDS];
    frost_file_head head;
    int64_t numbers[MOST_RECORDS];
    uint8_t rounds[MOST_RECORDS];
    frost_reading_answer reading;
    frost_written written;
    uint8_t bytes[LONGEST_LISTING];
    frost_plain_answer plains[MOST_WORDS];
    frost_half_unit_answer half_units[MOST_WORDS];
    frost_block_sum_answer block_sum;
};

/* The last is only checked, on odd work. */
enum {
    SUM,
    CUT,
    EVEN_CUT,
    PRODUCT,
    PUT_HAND_OUT,
    BANK,
    IMPORT_PLAIN,
    IMPORT_HALF,
    TEXT_WRITE,
    TEXT_READ,
    READ,
    WRITE,
    READING,
    BLOCK_SUM,
    LISTING,
    LISTING_IN_LITTLE_ROOM,
    EACH_SUM,
    LOOPS
};

typedef void loop(const struct work *w, struct answers *a);

/* Work that nobody refuses, to be measured; each seed has records of its own, in a file of this layout. A block that is
 * summed may have more of them than a file. */
void make_work(struct work *w, uint64_t seed, const struct layout *layout, uint32_t records);

/* Little work, with every cause to be refused over many seeds, in files of every version, to be checked. */
void make_odd_work(struct work *w, uint64_t seed);

#endif
