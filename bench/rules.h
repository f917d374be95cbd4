/* The numbers of the documents, each once: the C peer goes by them, and the work is made around them. */
#ifndef RULES_H
#define RULES_H

#include <stddef.h>
#include <stdint.h>

enum cause {
    DONE = 0,
    WIDTH_OUTSIDE = 1,
    UNIT_OUTSIDE = 2,
    NUMBER_OUTSIDE = 3,
    OPERANDS_DIFFER = 4,
    DEPTH_OUTSIDE = 5,
    ANSWER_TOO_WIDE = 6,
    ANSWER_UNIT_OUTSIDE = 7,
    ANSWER_DOES_NOT_FIT = 8,
    SIGN_REPEATED = 9,
    BUFFER_TOO_SHORT = 10,
    MARK_OR_VERSION_WRONG = 11,
    LENGTH_KIND_OR_COUNT_WRONG = 12,
    BYTE_OUTSIDE = 13,
    RUN_OUTSIDE = 14,
    NOT_FINITE = 15,
    CHANNEL_OUTSIDE = 17,
};

enum { LEAST_WIDTH = 2, MOST_WIDTH = 63, MOST_UNIT = 127, LEAST_UNIT = -MOST_UNIT, BLANK_WIDTH = 2 };

/* The bytes of a digit text. */
enum digit_byte { PLUS = '+', ZERO = '0', MINUS = '-' };

/* Their bytes in a file; KINDS is the first byte that is no kind. */
enum kind_byte { PLAIN, ROUND_BIT, HALF_UNIT, KINDS };

/* The block file: a header, which every version has, and records. */
#define MARK "RNB"
enum {
    VERSION_AT = 3,
    KIND_AT = 5,
    WIDTH_AT = 6,
    UNIT_AT = 7,
    COUNT_AT = 8,
    HEADER_SIZE = 12,
    /* In a record: the number, whose high bytes not every version has, then the round bit. */
    LOW_SIZE = 4,
    HIGH_SIZE = 2,
    ROUND_SIZE = 1,
    MOST_RECORDS = 8000,
    LONGEST_FILE = HEADER_SIZE + (LOW_SIZE + HIGH_SIZE + ROUND_SIZE) * MOST_RECORDS,
    /* As the header has it. */
    LONGEST_LISTING = 328019,
};

/* One row for each version: what sets it apart. No width stands in two of them, so that a block has one file. */
enum { VERSION_1, VERSION_2, VERSIONS };
static const struct layout {
    uint16_t version;
    uint8_t number_size, least_width, most_width;
} layouts[VERSIONS] = {
    {1, LOW_SIZE, LEAST_WIDTH, 32},
    {2, LOW_SIZE + HIGH_SIZE, 33, 48},
};

/* The layout of a file of such words, or NULL where no file has them. */
static inline const struct layout *layout_for(uint32_t width)
{
    for (const struct layout *l = layouts; l < layouts + VERSIONS; l++)
        if (l->least_width <= width && width <= l->most_width)
            return l;
    return NULL;
}

static inline size_t record_size(const struct layout *layout)
{
    return layout->number_size + ROUND_SIZE;
}

/* The length of a file of so many records, and so where the record of this index begins. */
static inline size_t file_size(const struct layout *layout, size_t count)
{
    return HEADER_SIZE + record_size(layout) * count;
}

/* A reading for the plotting desk. */
enum { LEAST_READING_WIDTH = LEAST_WIDTH, MOST_READING_WIDTH = 24 };

/* The sum of a block, of any number of records. */
enum { LEAST_BLOCK_SUM_WIDTH = LEAST_WIDTH, MOST_BLOCK_SUM_WIDTH = 48 };

/* The filter bank: as many samples as taps. */
enum { CHANNELS = 4, TAPS = 8, TAP_WIDTH = 12, SAMPLE_WIDTH = 16, BANK_SUM_WIDTH = 31, BANK_DEPTH = 11 };

#endif
