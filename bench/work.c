/* The same work in every run: good words, digit texts of them and samples for them, whose numbers have every size that
 * their width allows, and odd ones. */
#include <math.h>
#include <string.h>

#include "work.h"

/* splitmix64. */
static uint64_t next(uint64_t *state)
{
    uint64_t z = *state += 0x9E3779B97F4A7C15u;
    z = (z ^ z >> 30) * 0xBF58476D1CE4E5B9u;
    z = (z ^ z >> 27) * 0x94D049BB133111EBu;
    return z ^ z >> 31;
}

static uint32_t below(uint64_t *state, uint32_t end)
{
    return (uint32_t)(next(state) % end);
}

static int64_t signed_by_chance(uint64_t *state, int64_t magnitude)
{
    return next(state) & 1 ? magnitude : -1 - magnitude;
}

/* A number of at most `digits` digits and a sign; every count of digits is as likely as another. */
static int64_t number(uint64_t *state, uint32_t digits)
{
    uint64_t end = (uint64_t)1 << below(state, digits + 1);
    return signed_by_chance(state, (int64_t)(next(state) % end));
}

static frost_round_bit word(uint64_t *state, uint32_t digits, uint32_t width, int32_t unit)
{
    frost_round_bit w = {number(state, digits), width, unit, 0};
    w.round = next(state) & 1;
    return w;
}

/* The number is a digit shorter than its width allows, so that two of them add up in it. */
static frost_round_bit good_word(uint64_t *state, uint32_t width, int32_t unit)
{
    return word(state, width - 2, width, unit);
}

static uint32_t any_width(uint64_t *state)
{
    return LEAST_WIDTH + below(state, MOST_WIDTH - LEAST_WIDTH + 1);
}

/* Every width from 0 and two past the most; every unit and some past either end. */
enum { WIDTHS_AND_PAST = MOST_WIDTH + WIDTHS_PAST + 1, UNITS_PAST = 5 };

static int32_t odd_unit(uint64_t *state)
{
    return (int32_t)below(state, MOST_UNIT - LEAST_UNIT + 2 * UNITS_PAST) + LEAST_UNIT - UNITS_PAST;
}

/* May have a digit too many, and often lies at the edge of its width. */
static int64_t odd_number(uint64_t *state, uint32_t width)
{
    int64_t odd = number(state, width < MOST_WIDTH ? width : MOST_WIDTH);
    if (below(state, 4) == 0 && 1 <= width && width <= MOST_WIDTH)
        odd = signed_by_chance(state, ((int64_t)1 << (width - 1)) - below(state, 3));
    return odd;
}

/* Mostly of the given format, or every pair would be refused for that. */
static frost_round_bit odd_word(uint64_t *state, uint32_t width, int32_t unit)
{
    if (below(state, 4) == 0) {
        width = below(state, WIDTHS_AND_PAST);
        unit = odd_unit(state);
    }
    frost_round_bit w = {odd_number(state, width), width, unit, 0};
    w.round = below(state, 16) % 5 % 3;
    return w;
}

static void put_bytes(uint8_t *to, uint64_t x, size_t size)
{
    for (size_t i = 0; i < size; i++)
        to[i] = (uint8_t)(x >> 8 * i);
}

/* The file of the block as it stands, also where the block is no good. */
static void make_file(struct work *w, const struct layout *layout)
{
    memcpy(w->file, MARK, VERSION_AT);
    put_bytes(w->file + VERSION_AT, layout->version, KIND_AT - VERSION_AT);
    w->file[KIND_AT] = (uint8_t)w->kind;
    w->file[WIDTH_AT] = (uint8_t)w->width;
    w->file[UNIT_AT] = (uint8_t)w->unit;
    put_bytes(w->file + COUNT_AT, w->numbers_count, HEADER_SIZE - COUNT_AT);
    for (size_t k = 0; k < w->numbers_count; k++) {
        uint8_t *record = w->file + file_size(layout, k);
        put_bytes(record, (uint64_t)w->numbers[k], layout->number_size);
        record[layout->number_size] = w->rounds[k];
    }
    w->length = file_size(layout, w->numbers_count);
}

/* Of the widest words that the version has. */
static void make_block(struct work *w, uint64_t *state, const struct layout *layout, uint32_t records)
{
    w->kind = ROUND_BIT;
    w->width = layout->most_width;
    w->unit = -8;
    w->numbers_count = w->rounds_count = records;
    for (uint32_t k = 0; k < records; k++) {
        w->numbers[k] = number(state, w->width - 1);
        w->rounds[k] = next(state) & 1;
    }
    make_file(w, layout);
}

/* Taps of one channel, or samples of one window. */
static void make_eight(frost_round_bit *words, uint64_t *state, uint32_t digits, uint32_t width, int32_t unit)
{
    for (int k = 0; k < TAPS; k++)
        words[k] = word(state, digits, width, unit);
}

/* Units end at 50, so that those of products and outputs stay in their range. */
static int32_t bank_unit(uint64_t *state)
{
    return (int32_t)below(state, 101) - 50;
}

static void make_banks(struct work *w, uint64_t *state)
{
    for (int i = 0; i < BANKS; i++)
        for (int c = 0; c < CHANNELS; c++)
            make_eight(w->banks[i].channels[c].taps, state, TAP_WIDTH - 1, TAP_WIDTH, bank_unit(state));
    for (int i = 0; i < WINDOWS; i++)
        make_eight(w->windows[i].samples, state, SAMPLE_WIDTH - 1, SAMPLE_WIDTH, bank_unit(state));
    for (int i = 0; i < w->words; i++)
        w->channels[i] = below(state, CHANNELS);
}

/* A word of this format, which is handed back, and its text: each digit is the bit below it less its own, and below the
 * lowest is the round bit. Behind it lie zeros, so that a longer text has no other fault. */
static frost_round_bit make_text(struct text *t, uint64_t *state, uint32_t width, int32_t unit)
{
    frost_round_bit w = word(state, width - 1, width, unit);
    int lower = w.round;
    memset(t->bytes, ZERO, sizeof t->bytes);
    for (uint32_t i = 0; i < width; i++) {
        int here = w.number >> i & 1;
        if (lower != here)
            t->bytes[width - 1 - i] = here < lower ? PLUS : MINUS;
        lower = here;
    }
    t->length = width;
    t->unit = unit;
    return w;
}

/* Every width and unit: nothing else can refuse a text of a word. The same words are written. */
static void make_texts(struct work *w, uint64_t *state)
{
    for (int i = 0; i < w->words; i++) {
        uint32_t width = any_width(state);
        int32_t unit = (int32_t)below(state, MOST_UNIT - LEAST_UNIT + 1) + LEAST_UNIT;
        w->writings[i].word = make_text(&w->texts[i], state, width, unit);
        w->writings[i].room = MOST_WIDTH + WIDTHS_PAST;
    }
}

/* All records of a block of the widest words that a reading takes. */
static void make_run(struct run *r, uint64_t *state, uint32_t records)
{
    r->kind = ROUND_BIT;
    r->width = MOST_READING_WIDTH;
    r->numbers_count = r->rounds_count = r->length = records;
    r->first = 0;
    for (uint32_t k = 0; k < records; k++) {
        r->numbers[k] = number(state, r->width - 1);
        r->rounds[k] = next(state) & 1;
    }
}

/* Of a unit: nothing, the half, or any other as fine as a double has it. */
static double fraction(uint64_t *state)
{
    uint32_t chance = below(state, 8);
    if (chance < 2)
        return 0.5 * chance;
    return ldexp((double)(next(state) >> 11), -53);
}

/* The sample that is worth so many units, as near as a double gets. */
static uint64_t sample_bits(int64_t whole, double part, int32_t unit)
{
    return frost_binary64_bits(ldexp((double)whole + part, unit));
}

/* Every width and unit, and whole counts of every size that the width allows. Behind the greatest number nothing
 * follows: rounded up it would not fit. */
static void make_imports(struct work *w, uint64_t *state)
{
    for (struct import *t = w->imports; t < w->imports + w->words; t++) {
        t->width = any_width(state);
        t->unit = (int32_t)below(state, MOST_UNIT - LEAST_UNIT + 1) + LEAST_UNIT;
        int64_t whole = number(state, t->width - 1);
        double part = fraction(state);
        if (whole == ((int64_t)1 << (t->width - 1)) - 1)
            part = 0;
        t->bits = sample_bits(whole, part, t->unit);
    }
}

/* Of this width, with numbers of at most so many digits. */
static void make_summed(struct summed *s, uint64_t *state, uint32_t records, uint32_t width, uint32_t digits)
{
    s->width = width;
    s->unit = -8;
    s->numbers_count = s->rounds_count = records;
    for (uint32_t k = 0; k < records; k++) {
        s->numbers[k] = number(state, digits);
        s->rounds[k] = next(state) & 1;
    }
}

/* Widths end at 32 and units at 60, so that no product is refused. */
void make_work(struct work *w, uint64_t seed, const struct layout *layout, uint32_t records)
{
    uint64_t state = 20260101 + seed;
    w->words = MOST_WORDS;
    w->sum_width = SUM_WIDTH;
    w->sum_unit = SUM_UNIT;
    w->sum_depth = SUM_DEPTH;
    for (int i = 0; i < w->words; i++) {
        uint32_t width = 3 + below(&state, 30);
        int32_t unit = (int32_t)below(&state, 121) - 60;
        w->first[i] = good_word(&state, width, unit);
        w->second[i] = good_word(&state, width, unit);
        w->depths[i] = below(&state, width - 1);
        w->samples[i] = good_word(&state, SUM_WIDTH, SUM_UNIT);
    }
    uint32_t in_file = records < MOST_RECORDS ? records : MOST_RECORDS;
    make_block(w, &state, layout, in_file);
    make_banks(w, &state);
    make_texts(w, &state);
    w->numbers_room = w->rounds_room = MOST_RECORDS;
    w->file_room = LONGEST_FILE;
    w->text_room = LONGEST_LISTING;
    w->little_text_room = LONGEST_LISTING - 1;
    make_run(&w->run, &state, in_file);
    make_imports(w, &state);
    make_summed(&w->summed, &state, records, MOST_BLOCK_SUM_WIDTH, SUMMED_DIGITS);
}

static const struct layout *any_layout(uint64_t *state)
{
    return &layouts[below(state, VERSIONS)];
}

/* Mostly one that this version has; at one of its ends or just past it; or any. */
static uint32_t odd_file_width(uint64_t *state, const struct layout *layout)
{
    switch (below(state, 8)) {
    case 0:
        return layout->least_width - below(state, 2);
    case 1:
        return layout->most_width + below(state, 2);
    case 2:
        return below(state, WIDTHS_AND_PAST);
    default:
        return layout->least_width + below(state, layout->most_width - layout->least_width + 1);
    }
}

/* The same low digits, as many as a record of some version has, and others above: who keeps the low ones alone takes it
 * for the near one. */
static int64_t far_number(uint64_t *state, int64_t near)
{
    uint32_t kept = 8 * any_layout(state)->number_size;
    return (int64_t)((uint64_t)near + ((uint64_t)number(state, MOST_WIDTH - kept) << kept));
}

/* Some of them no good in a block of this width. A kind without round bits has mostly zeros there. */
static void make_odd_records(int64_t *numbers, uint8_t *rounds, size_t count, uint64_t *state, uint32_t kind,
                             uint32_t width)
{
    for (size_t k = 0; k < count; k++) {
        if (below(state, 2) == 0)
            numbers[k] = odd_number(state, width);
        else if (LEAST_WIDTH <= width && width <= MOST_WIDTH)
            numbers[k] = number(state, width - 1);
        if (below(state, 16) == 0)
            numbers[k] = far_number(state, numbers[k]);
        if (below(state, 32) == 0)
            rounds[k] = (uint8_t)next(state);
    }
    if (kind != ROUND_BIT && below(state, 8) != 0)
        memset(rounds, 0, count);
}

/* The block's file, perhaps with a byte changed or of a wrong length. Perhaps it says that it is of another version,
 * and its length and width are perhaps that one's too. */
static void make_odd_file(struct work *w, uint64_t *state, const struct layout *layout)
{
    make_file(w, layout);
    if (below(state, 4) == 0) {
        const struct layout *other = any_layout(state);
        w->file[VERSION_AT] = (uint8_t)(below(state, 4) == 0 ? below(state, VERSIONS + 2) : other->version);
        if (below(state, 4) != 0)
            w->length = file_size(other, w->numbers_count);
        if (below(state, 2) == 0)
            w->file[WIDTH_AT] = (uint8_t)odd_file_width(state, other);
    }
    if (below(state, 2) == 0)
        w->file[below(state, (uint32_t)w->length)] = (uint8_t)(next(state) >> below(state, 8));
    if (below(state, 16) == 0)
        w->file[UNIT_AT] = (uint8_t)(LEAST_UNIT - 1);
    if (below(state, 16) == 0)
        w->length = file_size(any_layout(state), w->numbers_count);
    if (below(state, 16) == 0)
        w->length = below(state, 2 * (uint32_t)w->length);
}

/* A block of some version with odd records, an odd file of it, and then perhaps another width and unlike lengths. Rooms
 * are often too short, that of the file often by a byte. */
static void make_odd_block(struct work *w, uint64_t *state)
{
    const struct layout *layout = any_layout(state);
    make_block(w, state, layout, below(state, 4));
    w->kind = below(state, 16) % 5 % (KINDS + 1);
    w->unit = odd_unit(state);
    if (below(state, 4) != 0)
        w->width = odd_file_width(state, layout);
    make_odd_records(w->numbers, w->rounds, w->numbers_count, state, w->kind, w->width);
    make_odd_file(w, state, layout);
    if (below(state, 4) == 0)
        w->width = odd_file_width(state, any_layout(state));
    if (below(state, 8) == 0)
        w->rounds_count = below(state, 4);
    w->numbers_room = below(state, 8);
    w->rounds_room = below(state, 8);
    w->file_room = file_size(any_layout(state), w->numbers_count) - below(state, 2);
    w->text_room = below(state, 192);
    w->little_text_room = below(state, 64);
}

/* Perhaps with no other numbers than 0 and -1, perhaps all alike: the cut of a sum near 0 shows its round bits, that of
 * others hardly ever. Perhaps all of another width, some odd ones among them, one that is only of another unit. */
static void make_odd_eight(frost_round_bit *words, uint64_t *state, uint32_t width)
{
    int32_t unit = odd_unit(state);
    if (below(state, 8) == 0)
        width = any_width(state);
    make_eight(words, state, below(state, 2) == 0 ? 0 : width - 1, width, unit);
    if (below(state, 2) == 0)
        for (int k = 1; k < TAPS; k++)
            words[k] = words[0];
    while (below(state, 2) == 0) {
        frost_round_bit odd = odd_word(state, width, unit);
        words[below(state, TAPS)] = odd;
    }
    if (below(state, 8) == 0) {
        int32_t other = odd_unit(state);
        words[below(state, TAPS)].unit = other;
    }
}

static void make_odd_banks(struct work *w, uint64_t *state)
{
    for (int i = 0; i < w->words; i++) {
        for (int c = 0; c < CHANNELS; c++)
            make_odd_eight(w->banks[i].channels[c].taps, state, TAP_WIDTH);
        make_odd_eight(w->windows[i].samples, state, SAMPLE_WIDTH);
        w->channels[i] = below(state, 16) == 0 ? (uint32_t)next(state) : below(state, 16) % (CHANNELS + 1);
    }
}

/* One of the three, so that a sign may repeat; or a byte beside them; or any. */
static uint8_t odd_byte(uint64_t *state)
{
    static const uint8_t three[] = {PLUS, ZERO, MINUS};
    if (below(state, 2) == 0)
        return three[below(state, 3)];
    return below(state, 2) == 0 ? (uint8_t)(PLUS - 1 + below(state, 8)) : (uint8_t)next(state);
}

/* Some bytes changed, often the last, which is a place that only texts as long have; perhaps of another length. */
static void make_odd_texts(struct work *w, uint64_t *state)
{
    for (struct text *t = w->texts; t < w->texts + w->words; t++) {
        uint32_t width = any_width(state);
        make_text(t, state, width, odd_unit(state));
        while (below(state, 2) == 0) {
            uint8_t odd = odd_byte(state);
            t->bytes[below(state, 4) == 0 ? width - 1 : below(state, width)] = odd;
        }
        if (below(state, 4) == 0)
            t->length = below(state, WIDTHS_AND_PAST);
    }
}

/* A run that often passes the end, of records among which some are perhaps too wide, or no good of another kind. */
static void make_odd_run(struct run *r, uint64_t *state)
{
    uint32_t records = below(state, 8);
    make_run(r, state, records);
    if (below(state, 2) == 0)
        r->width = below(state, MOST_READING_WIDTH + WIDTHS_PAST + 1);
    if (below(state, 4) == 0)
        r->kind = below(state, KINDS + 1);
    make_odd_records(r->numbers, r->rounds, records, state, r->kind, r->width);
    if (below(state, 8) == 0)
        r->rounds_count = below(state, 8);
    r->first = below(state, 16) == 0 ? next(state) : below(state, records + 1);
    r->length = below(state, 16) == 0 ? next(state) : below(state, records - (uint32_t)r->first % (records + 1) + 2);
}

/* Mostly of so few digits that many a step passes them: nothing else shows in what order was added. Perhaps with some
 * records that are no good, one perhaps for its round byte alone; perhaps of another width or unit, or with unlike
 * lengths. */
static void make_odd_summed(struct summed *s, uint64_t *state)
{
    uint32_t widths = below(state, 4) == 0 ? MOST_BLOCK_SUM_WIDTH - LEAST_BLOCK_SUM_WIDTH + 1 : 4;
    uint32_t width = LEAST_BLOCK_SUM_WIDTH + below(state, widths);
    make_summed(s, state, below(state, 16), width, width - 1);
    s->unit = odd_unit(state);
    if (below(state, 2) == 0)
        make_odd_records(s->numbers, s->rounds, s->numbers_count, state, ROUND_BIT, width);
    if (below(state, 8) == 0)
        s->rounds[below(state, 16)] = 2;
    if (below(state, 4) == 0)
        s->width = odd_file_width(state, any_layout(state));
    if (below(state, 8) == 0)
        s->width = (uint32_t)next(state) >> below(state, 32);
    if (below(state, 8) == 0)
        s->unit = (int32_t)next(state);
    if (below(state, 8) == 0)
        s->rounds_count = below(state, 16);
}

/* Any room, or the two between which a refusal begins: just the width, and a byte less. */
static void make_odd_writings(struct work *w, uint64_t *state)
{
    for (struct writing *t = w->writings; t < w->writings + w->words; t++) {
        int32_t unit = odd_unit(state);
        t->word = odd_word(state, any_width(state), unit);
        t->room = below(state, WIDTHS_AND_PAST);
        if (below(state, 2) == 0 && t->word.width != 0)
            t->room = t->word.width - below(state, 2);
    }
}

/* A binary64: 52 digits, the field of its exponent, its sign. */
enum { FIELD_AT = 52, FIELDS = 2048, SIGN_AT = 63 };

/* With this field. Often without any digits, or with the least or most of them. */
static uint64_t odd_pattern(uint64_t *state, uint64_t field)
{
    uint64_t digits = next(state);
    if (below(state, 2) == 0)
        digits = (uint64_t)below(state, 3) - 1;
    digits &= ((uint64_t)1 << FIELD_AT) - 1;
    return next(state) << SIGN_AT | field << FIELD_AT | digits;
}

/* Every second sample has the next field, so that over the works every exponent occurs. The others lie at a number that
 * may be at the edge of its width, or above it, often by half a unit, and are perhaps the double before or after; or
 * they have the first field or the last, and so are subnormal, zero, infinite or not a number. */
static void make_odd_imports(struct work *w, uint64_t *state, uint64_t works_before)
{
    for (int i = 0; i < w->words; i++) {
        int32_t unit = odd_unit(state);
        frost_round_bit near = odd_word(state, any_width(state), unit);
        double part = below(state, 2) == 0 ? 0.5 : fraction(state);
        uint64_t bits = sample_bits(near.number, part, near.unit) + below(state, 3) - 1;
        if (i % 2 == 0)
            bits = odd_pattern(state, (works_before * (uint64_t)w->words + (uint64_t)i) / 2 % FIELDS);
        else if (below(state, 8) == 0)
            bits = odd_pattern(state, (FIELDS - 1) * below(state, 2));
        w->imports[i] = (struct import){bits, near.width, near.unit};
        if (below(state, 32) == 0)
            w->imports[i].width = (uint32_t)next(state);
        if (below(state, 32) == 0)
            w->imports[i].unit = (int32_t)next(state);
    }
}

void make_odd_work(struct work *w, uint64_t seed)
{
    uint64_t works_before = seed;
    w->words = 16;
    w->sum_width = below(&seed, WIDTHS_AND_PAST);
    w->sum_unit = odd_unit(&seed);
    w->sum_depth = below(&seed, 1 + w->sum_width);
    for (int i = 0; i < w->words; i++) {
        w->first[i] = odd_word(&seed, any_width(&seed), 100);
        w->second[i] = odd_word(&seed, w->first[i].width, w->first[i].unit);
        w->depths[i] = below(&seed, 8) == 0 ? next(&seed) : below(&seed, WIDTHS_AND_PAST);
        w->samples[i] = odd_word(&seed, w->sum_width, w->sum_unit);
    }
    make_odd_block(w, &seed);
    make_odd_banks(w, &seed);
    make_odd_texts(w, &seed);
    make_odd_run(&w->run, &seed);
    make_odd_writings(w, &seed);
    make_odd_imports(w, &seed, works_before);
    make_odd_summed(&w->summed, &seed);
}
