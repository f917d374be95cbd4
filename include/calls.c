/* Every function of frostuldi.h called from C, and one refusal of each type of answer at least. What each must answer was
 * worked out by hand from the documents. No right answer is all zeros: so a function that answers nothing is seen. */
#include "frostuldi.h"

#include <stdio.h>
#include <string.h>

static int failed;
#define HOLDS(test) ((test) ? (void)0 : (void)(failed = 1, puts("calls: does not hold: " #test)))

/* Words: the number, the round bit of those that have one, the width, the unit. */
static frost_plain p(int64_t number, uint32_t width, int32_t unit)
{
    return (frost_plain){.number = number, .width = width, .unit = unit};
}
static frost_half_unit h(int64_t number, uint32_t width, int32_t unit)
{
    return (frost_half_unit){.number = number, .width = width, .unit = unit};
}
static frost_round_bit rb(int64_t number, uint8_t round, uint32_t width, int32_t unit)
{
    return (frost_round_bit){.number = number, .width = width, .unit = unit, .round = round};
}
static frost_running_sum keeps(frost_round_bit kept) { return (frost_running_sum){.kept = kept, .depth = 2}; }

/* Is this the answer? Field by field, since what lies between fields may be anything. */
static int plain(frost_plain_answer a, frost_plain w, uint32_t refusal)
{
    return a.word.number == w.number && a.word.width == w.width && a.word.unit == w.unit && a.refusal == refusal;
}
static int half_unit(frost_half_unit_answer a, frost_half_unit w, uint32_t refusal)
{
    return a.word.number == w.number && a.word.width == w.width && a.word.unit == w.unit && a.refusal == refusal;
}
static int same(frost_round_bit v, frost_round_bit w)
{
    return v.number == w.number && v.round == w.round && v.width == w.width && v.unit == w.unit;
}
static int round_bit(frost_round_bit_answer a, frost_round_bit w, uint32_t refusal)
{
    return same(a.word, w) && a.refusal == refusal;
}
static int sum(frost_sum_answer a, frost_round_bit kept, frost_round_bit w, uint32_t refusal)
{
    return same(a.sum.kept, kept) && a.sum.depth == 2 && same(a.word, w) && a.refusal == refusal;
}
static int reading(frost_text_answer a, frost_round_bit w, uint32_t refusal, uint32_t place)
{
    return same(a.word, w) && a.refusal == refusal && a.place == place;
}
static int written(frost_written a, uint64_t bytes, uint32_t refusal)
{
    return a.bytes == bytes && a.refusal == refusal;
}
static int head(frost_file_head a, uint32_t kind, uint32_t width, int32_t unit, uint32_t count, uint32_t refusal)
{
    return a.kind == kind && a.width == width && a.unit == unit && a.count == count && a.refusal == refusal;
}

static void round_bit_words(void)
{
    HOLDS(round_bit(frost_round_bit_sign_change(rb(5, 1, 5, -3)), rb(-6, 0, 5, -3), 0));
    HOLDS(round_bit(frost_round_bit_cut(rb(-718, 0, 11, 3), 2), rb(-180, 1, 9, 5), 0)); /* P6 */
    HOLDS(round_bit(frost_round_bit_rest(rb(-718, 1, 11, 3), 2), rb(-2, 1, 11, 3), 0)); /* P6, with round bit 1 */
    HOLDS(round_bit(frost_round_bit_even_cut(rb(2, 1, 5, 1), 1), rb(1, 1, 4, 2), 0)); /* the cut is (1,0) */
    HOLDS(round_bit(frost_round_bit_widen(rb(5, 1, 4, 3), 2), rb(23, 1, 6, 1), 0)); /* P8 */
    HOLDS(round_bit(frost_round_bit_sum(rb(3, 1, 5, -2), rb(4, 1, 5, -2)), rb(8, 1, 5, -2), 0)); /* P1 */
    HOLDS(round_bit(frost_round_bit_sum(rb(15, 0, 5, 0), rb(1, 0, 5, 0)), rb(0, 0, 2, 0), 8)); /* P3 */
    HOLDS(round_bit(frost_round_bit_difference(rb(5, 0, 5, 1), rb(3, 0, 5, 1)), rb(1, 1, 5, 1), 0)); /* (5,0)+(-4,1) */
    HOLDS(round_bit(frost_round_bit_product(rb(11, 1, 5, 1), rb(9, 1, 6, 2)), rb(119, 1, 10, 3), 0)); /* P9, wider */
    HOLDS(plain(frost_round_bit_to_plain(rb(14, 1, 5, -2)), p(15, 5, -2), 0));
    HOLDS(plain(frost_round_bit_to_plain(rb(15, 1, 5, -2)), p(0, 2, 0), 8)); /* a line of the bench sheet */
    HOLDS(round_bit(frost_round_bit_from_plain(p(7, 5, 4)), rb(7, 0, 5, 4), 0));
}

static void half_unit_words(void)
{
    HOLDS(half_unit(frost_half_unit_sign_change(h(5, 5, 3)), h(-6, 5, 3), 0));
    HOLDS(half_unit(frost_half_unit_cut(h(13, 6, 1), 2), h(3, 4, 3), 0));
    HOLDS(half_unit(frost_half_unit_from_plain_up(p(6, 5, 1), 1), h(3, 4, 2), 0)); /* P10 */
    HOLDS(half_unit(frost_half_unit_from_plain_even(p(6, 5, 1), 1), h(2, 4, 2), 0)); /* P10 */
    HOLDS(plain(frost_half_unit_to_plain(h(5, 5, 3)), p(11, 6, 2), 0));
    HOLDS(round_bit(frost_half_unit_to_round_bit(h(5, 5, 3)), rb(11, 0, 6, 2), 0));
    HOLDS(half_unit(frost_half_unit_from_round_bit(rb(5, 1, 5, 3)), h(11, 6, 2), 0));
    HOLDS(half_unit(frost_half_unit_sum_up(h(5, 5, 3), h(3, 5, 3)), h(9, 5, 3), 0)); /* P11 */
    HOLDS(half_unit(frost_half_unit_sum_even(h(5, 5, 3), h(3, 5, 3)), h(8, 5, 3), 0)); /* P11 */
    HOLDS(half_unit(frost_half_unit_product(h(5, 5, 3), h(2, 6, 4)), h(27, 11, 6), 0)); /* P12, wider */
    HOLDS(half_unit(frost_half_unit_product(h(5, 32, 0), h(2, 32, 0)), h(0, 2, 0), 6)); /* a line of the bench sheet */
}

/* The second put of P14, at another unit. */
static void running_sums(void)
{
    frost_round_bit blank = rb(0, 0, 2, 0);
    HOLDS(sum(frost_running_sum_open(8, -5, 2), rb(0, 0, 8, -5), blank, 0));
    HOLDS(sum(frost_running_sum_put(keeps(rb(-1, 0, 8, -5)), rb(3, 0, 8, -5)), rb(2, 0, 8, -5), blank, 0));
    HOLDS(sum(frost_running_sum_put(keeps(rb(-1, 0, 8, -5)), rb(3, 0, 9, -5)), rb(-1, 0, 8, -5), blank, 4));
    HOLDS(sum(frost_running_sum_hand_out(keeps(rb(2, 0, 8, -5))), rb(-2, 0, 8, -5), rb(0, 1, 6, -3), 0));
    HOLDS(sum(frost_running_sum_empty(keeps(rb(-2, 1, 8, -5))), rb(0, 0, 8, -5), rb(-2, 1, 8, -5), 0));
}

/* Taps of one channel, at unit -4, and samples of the window, at unit -5. */
static frost_round_bit tap(int64_t number, uint8_t round) { return rb(number, round, 12, -4); }
static frost_round_bit sample(int64_t number, uint8_t round) { return rb(number, round, 16, -5); }

/* Channel 2, by hand:
 *      tap * sample                                                         product        added up
 *   0  (100,1) * (1000,1): 100000 + 100 + 1000                              (101100,1)     (101100,1)
 *   1  (-200,0) * (500,0): (199,1) * (500,0) = (100000,0), sign-changed     (-100001,1)    (1100,1)
 *   2  (300,0) * (-20,0): (300,0) * (19,1) = (6000,0), sign-changed         (-6001,1)      (-4900,1)
 *   3  (7,1) * (9,1): 63 + 7 + 9                                            (79,1)         (-4820,1)
 *   4  (-1,1) * (9,1): (0,0) * (9,1) = (0,0), sign-changed                  (-1,1)         (-4820,1)
 *   5  (-3,1) * (-1,0): (2,0) * (0,1)                                       (2,0)          (-4818,1)
 *   6  (2047,1) * (32767,1): 67074049 + 2047 + 32767, the most there is     (67108863,1)   (67104046,1)
 *   7  (1,0) * (-2350,0): (1,0) * (2349,1) = (2350,0), sign-changed         (-2351,1)      (67101696,1)
 * This is 32764 * 2048 + 1024: one less, where two round bits add nothing, would be cut to (32764,0). Channel 1 has
 * (1,0) for product 5 and so 1023 at last: one more, for the round bit of the sum, would be cut to (32764,1). The
 * channels beside these two are of width 0. */
static void filter_bank(void)
{
    frost_taps channel_1 = {{tap(100, 1), tap(-200, 0), tap(300, 0), tap(7, 1),
                             tap(-1, 1), tap(-2, 1), tap(2047, 1), tap(1, 0)}};
    frost_taps channel_2 = channel_1;
    channel_2.taps[5] = tap(-3, 1);
    frost_bank bank = {.channels = {[1] = channel_1, [2] = channel_2}};
    frost_window window = {{sample(1000, 1), sample(500, 0), sample(-20, 0), sample(9, 1),
                            sample(9, 1), sample(-1, 0), sample(32767, 1), sample(-2350, 0)}};
    frost_round_bit blank = rb(0, 0, 2, 0);
    HOLDS(round_bit(frost_bank_output(bank, window, 1), rb(32764, 0, 20, 2), FROST_DONE));
    HOLDS(round_bit(frost_bank_output(bank, window, 2), rb(32764, 1, 20, 2), FROST_DONE));
    HOLDS(round_bit(frost_bank_output(bank, window, 3), blank, FROST_REFUSED_WIDTH));
    window.samples[7].unit = -4;
    HOLDS(round_bit(frost_bank_output(bank, window, 2), blank, FROST_REFUSED_MISMATCH));
    window.samples[7].width = 64;
    HOLDS(round_bit(frost_bank_output(bank, window, 4), blank, FROST_REFUSED_CHANNEL));
}

/* P6's digit text, and document 01's file with its listing. Past what is written every buffer keeps its byte. */
static void texts_and_files(void)
{
    static const uint8_t lent[] = {0x52, 0x4E, 0x42, 1, 0, 1, 5, 0xFE, 2, 0, 0, 0,
                                   0x0B, 0, 0, 0, 1, 0xFF, 0xFF, 0xFF, 0xFF, 1};
    static const char listing[] = "RN 5 -2 2\n0 11 1 24\n1 -1 1 0\n";
    uint8_t text[] = "????????????????????????????????", file[32] = {[22] = 7}, rounds[] = {7, 7, 7};
    int64_t numbers[] = {7, 7, 7};
    HOLDS(written(frost_digit_text_write(rb(-718, 0, 11, 3), text, 10), 0, 10) && text[0] == '?');
    HOLDS(written(frost_digit_text_write(rb(-718, 0, 11, 3), text, 32), 11, 0));
    HOLDS(memcmp(text, "-+-0+0-0+-0?", 12) == 0);
    HOLDS(reading(frost_digit_text_read((const uint8_t *)"+-", 2, 3), rb(1, 0, 2, 3), 0, 0));
    HOLDS(head(frost_file_read(lent, 11, numbers, 3, rounds, 3), 0, 2, 0, 0, 12) && numbers[0] == 7 && rounds[0] == 7);
    HOLDS(head(frost_file_read(lent, 22, numbers, 3, rounds, 3), 1, 5, -2, 2, 0));
    HOLDS(numbers[0] == 11 && numbers[1] == -1 && numbers[2] == 7 && rounds[0] == 1 && rounds[1] == 1 && rounds[2] == 7);
    HOLDS(written(frost_file_write(1, 5, -2, numbers, 2, rounds, 2, file, 32), 22, 0));
    HOLDS(memcmp(file, lent, 22) == 0 && file[22] == 7);
    HOLDS(written(frost_listing_text(lent, 22, text, 32), 29, 0) && memcmp(text, listing, 29) == 0 && text[29] == '?');
}

/* A file of version 2: both ends of width 33. Width 32 in version 2, width 33 in version 1, and version 3. */
static void longer_words(void)
{
    static const uint8_t lent[] = {0x52, 0x4E, 0x42, 2,    0,    1, 33,   0xFF, 2,    0,    0, 0, 0,
                                   0,    0,    0,    0xFF, 0xFF, 0, 0xFF, 0xFF, 0xFF, 0xFF, 0, 0, 1};
    static const char listing[] = "RN 33 -1 2\n0 -4294967296 0 -8589934592\n1 4294967295 1 8589934592\n";
    uint8_t text[] = "????????????????????????????????????????????????????????????????????????", file[32] = {[26] = 7};
    uint8_t rounds[] = {7, 7, 7}, other[26];
    int64_t numbers[] = {7, 7, 7};
    HOLDS(head(frost_file_read(lent, 26, numbers, 3, rounds, 3), 1, 33, -1, 2, FROST_DONE));
    HOLDS(numbers[0] == -4294967296 && numbers[1] == 4294967295 && numbers[2] == 7 && rounds[0] == 0 && rounds[1] == 1);
    HOLDS(written(frost_file_write(1, 33, -1, numbers, 2, rounds, 2, file, 32), 26, FROST_DONE));
    HOLDS(memcmp(file, lent, 26) == 0 && file[26] == 7);
    HOLDS(written(frost_listing_text(lent, 26, text, sizeof text), sizeof listing - 1, FROST_DONE));
    HOLDS(memcmp(text, listing, sizeof listing - 1) == 0 && text[sizeof listing - 1] == '?');
    HOLDS(frost_file_write(1, 32, -1, numbers, 2, rounds, 2, file, 32).refusal == FROST_REFUSED_NUMBER);
    HOLDS(frost_file_read(lent, 22, numbers, 3, rounds, 3).refusal == FROST_REFUSED_FORM);
    memcpy(other, lent, sizeof other);
    other[6] = 32;
    HOLDS(frost_file_read(other, 26, numbers, 3, rounds, 3).refusal == FROST_REFUSED_WIDTH);
    other[3] = 1;
    other[6] = 33;
    HOLDS(frost_file_read(other, 26, numbers, 3, rounds, 3).refusal == FROST_REFUSED_FORM);
    other[8] = 0;
    HOLDS(frost_file_read(other, 12, numbers, 3, rounds, 3).refusal == FROST_REFUSED_WIDTH);
    other[3] = 3;
    HOLDS(frost_file_read(other, 12, numbers, 3, rounds, 3).refusal == FROST_REFUSED_MARK);
}

/* Where a digit text is wrong. */
static frost_text_answer read_digits(const char *text)
{
    return frost_digit_text_read((const uint8_t *)text, strlen(text), 3);
}
static void places(void)
{
    char many[65] = "";
    memset(many, 'x', 64);
    HOLDS(reading(read_digits("+ +"), rb(0, 0, 2, 0), FROST_REFUSED_BYTE, 1));
    HOLDS(reading(read_digits("+0+"), rb(0, 0, 2, 0), FROST_REFUSED_DIGIT_TEXT, 2));
    HOLDS(reading(read_digits("++-"), rb(0, 0, 2, 0), FROST_REFUSED_DIGIT_TEXT, 1));
    HOLDS(reading(read_digits("+0-0-+?"), rb(0, 0, 2, 0), FROST_REFUSED_BYTE, 6));
    HOLDS(reading(read_digits(many), rb(0, 0, 2, 0), FROST_REFUSED_WIDTH, 0));
}

/* Runs of four records of width 5, (11,1), (-1,1), (3,0), (-16,0): 24, 0, 6 and -32 half units. A zero has no bit set. */
static frost_reading_answer read_run(uint32_t kind, uint32_t width, size_t rounds_length, size_t first, size_t length)
{
    static const int64_t numbers[] = {11, -1, 3, -16};
    static const uint8_t rounds[] = {1, 1, 0, 0};
    return frost_reading_of_run(kind, width, numbers, 4, rounds, rounds_length, first, length);
}
static int numbers_are(frost_reading_answer a, float lowest, float highest, float first, uint32_t refusal)
{
    frost_reading_answer wanted = {{lowest, highest, first}, refusal};
    return memcmp(&a, &wanted, sizeof a) == 0;
}
static void desk_readings(void)
{
    static const int64_t ends[] = {8388607, -8388608}, far[] = {11, (INT64_C(1) << 32) + 11};
    static const uint8_t rounds[] = {1, 0};
    HOLDS(numbers_are(read_run(FROST_KIND_ROUND_BIT, 5, 4, 0, 4), -32, 24, 24, FROST_DONE));
    HOLDS(numbers_are(read_run(FROST_KIND_ROUND_BIT, 5, 4, 1, 2), 0, 6, 0, FROST_DONE));
    HOLDS(numbers_are(read_run(FROST_KIND_ROUND_BIT, 5, 4, 3, 1), -32, -32, -32, FROST_DONE));
    HOLDS(numbers_are(read_run(FROST_KIND_HALF_UNIT, 5, 4, 2, 2), -31, 7, 7, FROST_DONE));
    HOLDS(numbers_are(read_run(FROST_KIND_HALF_UNIT + 1, 25, 4, 4, 0), 0, 0, 0, FROST_REFUSED_FORM));
    HOLDS(numbers_are(read_run(FROST_KIND_ROUND_BIT, 25, 3, 4, 0), 0, 0, 0, FROST_REFUSED_FORM));
    HOLDS(numbers_are(read_run(FROST_KIND_ROUND_BIT, 25, 4, 4, 0), 0, 0, 0, FROST_REFUSED_WIDTH));
    HOLDS(numbers_are(read_run(FROST_KIND_ROUND_BIT, 5, 4, 4, 0), 0, 0, 0, FROST_REFUSED_RUN));
    HOLDS(numbers_are(read_run(FROST_KIND_ROUND_BIT, 4, 4, 3, 2), 0, 0, 0, FROST_REFUSED_RUN));
    HOLDS(numbers_are(read_run(FROST_KIND_ROUND_BIT, 5, 4, SIZE_MAX, 2), 0, 0, 0, FROST_REFUSED_RUN));
    HOLDS(numbers_are(read_run(FROST_KIND_ROUND_BIT, 5, 4, 1, SIZE_MAX), 0, 0, 0, FROST_REFUSED_RUN));
    HOLDS(numbers_are(read_run(FROST_KIND_ROUND_BIT, 4, 4, 1, 3), 0, 0, 0, FROST_REFUSED_NUMBER));
    HOLDS(numbers_are(frost_reading_of_run(FROST_KIND_ROUND_BIT, FROST_MOST_READING_WIDTH, ends, 2, rounds, 2, 0, 2),
                      -16777216, 16777216, 16777216, FROST_DONE));
    HOLDS(numbers_are(frost_reading_of_run(FROST_KIND_ROUND_BIT, 5, far, 2, rounds, 2, 0, 2), 0, 0, 0, FROST_REFUSED_NUMBER));
    HOLDS(numbers_are(frost_reading_of_run(FROST_KIND_HALF_UNIT, FROST_MOST_READING_WIDTH, ends, 2, rounds, 2, 1, 1),
                      -16777215, -16777215, -16777215, FROST_DONE));
}

/* Blocks of width 2, -2 to 1: 1, 1, -1 fits in halves, of which the smaller is first, and -1, 1, 1 does not. */
static int summed(frost_block_sum_answer a, frost_round_bit w, uint64_t index, uint32_t refusal)
{
    return same(a.word, w) && a.index == index && a.refusal == refusal;
}
static void block_sums(void)
{
    static const int64_t fits[] = {1, 1, -1}, past[] = {-1, 1, 1}, bad[] = {0, 2, 0, -3};
    static const int64_t ends[] = {-1, (INT64_C(1) << 47) - 1};
    static const uint8_t zeros[4], ones[] = {1, 1, 1, 1}, two[] = {0, 0, 2};
    HOLDS(summed(frost_block_sum(2, 0, fits, 3, zeros, 3), rb(1, 0, 2, 0), 0, FROST_DONE));
    HOLDS(summed(frost_block_sum(2, 0, past, 3, zeros, 3), rb(0, 0, 2, 0), 0, FROST_REFUSED_NUMBER_PAST));
    HOLDS(summed(frost_block_sum(3, 7, past, 3, ones, 3), rb(3, 1, 3, 7), 0, FROST_DONE));
    HOLDS(summed(frost_block_sum(FROST_MOST_BLOCK_SUM_WIDTH, -127, fits, 0, zeros, 0), rb(0, 0, 48, -127), 0, FROST_DONE));
    HOLDS(summed(frost_block_sum(FROST_MOST_BLOCK_SUM_WIDTH, 0, ends, 2, ones, 2), rb(ends[1], 1, 48, 0), 0, FROST_DONE));
    HOLDS(summed(frost_block_sum(47, 0, ends, 2, ones, 2), rb(0, 0, 2, 0), 1, FROST_REFUSED_NUMBER));
    HOLDS(summed(frost_block_sum(2, 0, bad, 4, zeros, 4), rb(0, 0, 2, 0), 1, FROST_REFUSED_NUMBER));
    HOLDS(summed(frost_block_sum(2, 0, past, 3, two, 3), rb(0, 0, 2, 0), 2, FROST_REFUSED_NUMBER));
    HOLDS(summed(frost_block_sum(2, 128, bad, 4, zeros, 4), rb(0, 0, 2, 0), 0, FROST_REFUSED_UNIT));
    HOLDS(summed(frost_block_sum(FROST_MOST_BLOCK_SUM_WIDTH + 1, 128, bad, 4, zeros, 4), rb(0, 0, 2, 0), 0,
                 FROST_REFUSED_WIDTH));
    HOLDS(summed(frost_block_sum(1, 128, bad, 4, zeros, 3), rb(0, 0, 2, 0), 0, FROST_REFUSED_FORM));
}

/* Samples: 2.5 is a tie of 2 and 3, and 3 one of the half-odd counts 2.5 and 3.5, whose numbers are 2 and 3. */
static void samples(void)
{
    static const uint64_t infinite = UINT64_C(0x7FF0000000000000), not_a_number = UINT64_C(0xFFF0000000000001);
    HOLDS(frost_binary64_bits(2.5) == UINT64_C(0x4004000000000000) && frost_binary64_bits(-0.0) == UINT64_C(1) << 63);
    HOLDS(plain(frost_plain_from_binary64(frost_binary64_bits(2.5), 5, 0), p(2, 5, 0), FROST_DONE));
    HOLDS(plain(frost_plain_from_binary64(frost_binary64_bits(-3.5), 5, 0), p(-4, 5, 0), FROST_DONE));
    HOLDS(plain(frost_plain_from_binary64(frost_binary64_bits(2.5), 5, -2), p(10, 5, -2), FROST_DONE));
    HOLDS(round_bit(frost_round_bit_from_binary64(frost_binary64_bits(2.75), 5, 0), rb(3, 0, 5, 0), FROST_DONE));
    HOLDS(half_unit(frost_half_unit_from_binary64(frost_binary64_bits(3.0), 5, 0), h(2, 5, 0), FROST_DONE));
    HOLDS(half_unit(frost_half_unit_from_binary64(frost_binary64_bits(-2.75), 5, 0), h(-3, 5, 0), FROST_DONE));
    HOLDS(half_unit(frost_half_unit_from_binary64(frost_binary64_bits(-0.0), 5, 1), h(0, 5, 1), FROST_DONE));
    HOLDS(plain(frost_plain_from_binary64(frost_binary64_bits(15.5), 5, 0), p(0, 2, 0), FROST_REFUSED_NUMBER_PAST));
    HOLDS(half_unit(frost_half_unit_from_binary64(frost_binary64_bits(2.0), 2, 0), h(0, 2, 0), FROST_REFUSED_NUMBER_PAST));
    HOLDS(round_bit(frost_round_bit_from_binary64(infinite, 5, 0), rb(0, 0, 2, 0), FROST_REFUSED_NOT_FINITE));
    HOLDS(plain(frost_plain_from_binary64(not_a_number, 5, 128), p(0, 2, 0), FROST_REFUSED_UNIT));
    HOLDS(plain(frost_plain_from_binary64(not_a_number, 64, 128), p(0, 2, 0), FROST_REFUSED_WIDTH));
}

/* What the header says of the whole library, tried at both sides of each limit. */
static void limits(void)
{
    static int64_t numbers[FROST_MOST_RECORDS + 1];
    static uint8_t rounds[FROST_MOST_RECORDS + 1], file[FROST_LONGEST_FILE + 1], text[FROST_LONGEST_LISTING];
    size_t most = FROST_MOST_RECORDS;
    HOLDS(frost_version() == FROST_VERSION);
    HOLDS(strcmp(frost_refusal_text(FROST_REFUSED_WIDTH_PAST), "the answer's width would pass 63") == 0);
    HOLDS(strcmp(frost_refusal_text(18), "no refusal has this number") == 0);
    HOLDS(frost_round_bit_sign_change(rb(0, 0, FROST_LEAST_WIDTH, FROST_LEAST_UNIT)).refusal == FROST_DONE);
    HOLDS(frost_round_bit_sign_change(rb(0, 0, FROST_MOST_WIDTH, FROST_MOST_UNIT)).refusal == FROST_DONE);
    HOLDS(frost_round_bit_sign_change(rb(0, 0, FROST_LEAST_WIDTH - 1, 0)).refusal == FROST_REFUSED_WIDTH);
    HOLDS(frost_round_bit_sign_change(rb(0, 0, FROST_MOST_WIDTH + 1, 0)).refusal == FROST_REFUSED_WIDTH);
    HOLDS(frost_round_bit_sign_change(rb(0, 0, 2, FROST_LEAST_UNIT - 1)).refusal == FROST_REFUSED_UNIT);
    HOLDS(frost_round_bit_sign_change(rb(0, 0, 2, FROST_MOST_UNIT + 1)).refusal == FROST_REFUSED_UNIT);
    HOLDS(written(frost_digit_text_write(rb(0, 0, FROST_MOST_WIDTH, 0), text, FROST_LONGEST_DIGIT_TEXT),
                  FROST_LONGEST_DIGIT_TEXT, FROST_DONE));
    HOLDS(frost_file_write(FROST_KIND_HALF_UNIT, FROST_MOST_FILE_WIDTH + 1, 0, numbers, 1, rounds, 1, file, 99).refusal ==
          FROST_REFUSED_WIDTH);
    HOLDS(frost_file_write(FROST_KIND_HALF_UNIT + 1, 5, 0, numbers, 1, rounds, 1, file, 99).refusal == FROST_REFUSED_FORM);
    HOLDS(frost_file_write(FROST_KIND_PLAIN, 5, 0, numbers, most + 1, rounds, most + 1, file, sizeof file).refusal ==
          FROST_REFUSED_FORM);
    HOLDS(written(frost_file_write(FROST_KIND_ROUND_BIT, FROST_MOST_FILE_WIDTH, -100, numbers, most, rounds, most, file,
                                   FROST_LONGEST_FILE),
                  FROST_LONGEST_FILE, FROST_DONE));
    HOLDS(frost_listing_text(file, FROST_LONGEST_FILE, text, sizeof text).refusal == FROST_DONE);
    memset(file, 0, sizeof file);
    HOLDS(frost_listing_text(file, FROST_LONGEST_FILE, text, 11).bytes == 11 && memcmp(text, "refused 11\n", 11) == 0);
    HOLDS(frost_listing_text(file, FROST_LONGEST_FILE + 1, text, 11).bytes == 11 && memcmp(text, "refused 12\n", 11) == 0);
}

int main(void)
{
    round_bit_words();
    half_unit_words();
    running_sums();
    filter_bank();
    texts_and_files();
    longer_words();
    places();
    desk_readings();
    block_sums();
    samples();
    limits();
    return failed;
}
