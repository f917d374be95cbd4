/* Every measured loop, written once and compiled once for each peer: WHO answers the calls, NAME is what the peer is
 * called here, and with INLINED the C peer's text stands in the loop's own file. */
#include "sums.h"
#include "work.h"

#ifdef INLINED
#define PEER static inline
#include "peer.c"
#include "peer_bank.c"
#include "peer_import.c"
#include "peer_text.c"
#include "peer_file.c"
#include "peer_block_sum.c"
#else
#include "calls.h"
DECLARE(WHO);
#endif

#define CALL(operation) JOIN(WHO, operation)

static void sum(const struct work *w, struct answers *a)
{
    for (int i = 0; i < w->words; i++)
        a->words[i] = CALL(round_bit_sum)(w->first[i], w->second[i]);
}

static void cut_by_depth(const struct work *w, struct answers *a)
{
    for (int i = 0; i < w->words; i++)
        a->words[i] = CALL(round_bit_cut)(w->first[i], w->depths[i]);
}

static void even_cut_by_depth(const struct work *w, struct answers *a)
{
    for (int i = 0; i < w->words; i++)
        a->words[i] = CALL(round_bit_even_cut)(w->first[i], w->depths[i]);
}

static void product(const struct work *w, struct answers *a)
{
    for (int i = 0; i < w->words; i++)
        a->words[i] = CALL(round_bit_product)(w->first[i], w->second[i]);
}

static void put_hand_out(const struct work *w, struct answers *a)
{
    frost_running_sum s = CALL(running_sum_open)(w->sum_width, w->sum_unit, w->sum_depth).sum;
    for (int i = 0; i < w->words; i++) {
        frost_sum_answer in = CALL(running_sum_put)(s, w->samples[i]);
        frost_sum_answer out = CALL(running_sum_hand_out)(in.sum);
        a->words[i].word = out.word;
        a->words[i].refusal = in.refusal << 8 | out.refusal;
        s = out.sum;
    }
    a->sums[0] = s;
}

/* A put and a hand-out on each sum of a list, also on those that no opening made. */
static void each_sum(const struct work *w, struct answers *a)
{
    for (int i = 0; i < w->words; i++) {
        frost_running_sum s = made_sum(w->first[i], w->depths[i]);
        frost_sum_answer in = CALL(running_sum_put)(s, w->second[i]);
        frost_sum_answer out = CALL(running_sum_hand_out)(s);
        a->words[i].word = out.word;
        a->words[i].refusal = in.refusal << 8 | out.refusal;
        a->sums[i] = in.sum;
    }
}

static void channel_output(const struct work *w, struct answers *a)
{
    for (int i = 0; i < w->words; i++)
        a->words[i] = CALL(bank_output)(w->banks[i % BANKS], w->windows[i % WINDOWS], w->channels[i]);
}

static void import_to_plain(const struct work *w, struct answers *a)
{
    for (int i = 0; i < w->words; i++)
        a->plains[i] = CALL(plain_from_binary64)(w->imports[i].bits, w->imports[i].width, w->imports[i].unit);
}

static void import_to_half_unit(const struct work *w, struct answers *a)
{
    for (int i = 0; i < w->words; i++)
        a->half_units[i] = CALL(half_unit_from_binary64)(w->imports[i].bits, w->imports[i].width, w->imports[i].unit);
}

static void write_text(const struct work *w, struct answers *a)
{
    for (int i = 0; i < w->words; i++)
        a->written_texts[i].written =
            CALL(digit_text_write)(w->writings[i].word, a->written_texts[i].bytes, w->writings[i].room);
}

static void read_text(const struct work *w, struct answers *a)
{
    for (int i = 0; i < w->words; i++)
        a->texts[i] = CALL(digit_text_read)(w->texts[i].bytes, w->texts[i].length, w->texts[i].unit);
}

static void read_file(const struct work *w, struct answers *a)
{
    a->head = CALL(file_read)(w->file, w->length, a->numbers, w->numbers_room, a->rounds, w->rounds_room);
}

static void write_file(const struct work *w, struct answers *a)
{
    a->written = CALL(file_write)(w->kind, w->width, w->unit, w->numbers, w->numbers_count, w->rounds,
                                  w->rounds_count, a->bytes, w->file_room);
}

static void read_run(const struct work *w, struct answers *a)
{
    const struct run *r = &w->run;
    a->reading = CALL(reading_of_run)(r->kind, r->width, r->numbers, r->numbers_count, r->rounds, r->rounds_count,
                                      r->first, r->length);
}

static void sum_block(const struct work *w, struct answers *a)
{
    const struct summed *s = &w->summed;
    a->block_sum = CALL(block_sum)(s->width, s->unit, s->numbers, s->numbers_count, s->rounds, s->rounds_count);
}

static void write_listing(const struct work *w, struct answers *a)
{
    a->written = CALL(listing_text)(w->file, w->length, a->bytes, w->text_room);
}

static void write_listing_in_little_room(const struct work *w, struct answers *a)
{
    a->written = CALL(listing_text)(w->file, w->length, a->bytes, w->little_text_room);
}

loop *const NAME[LOOPS] = {
    [SUM] = sum,
    [CUT] = cut_by_depth,
    [EVEN_CUT] = even_cut_by_depth,
    [PRODUCT] = product,
    [PUT_HAND_OUT] = put_hand_out,
    [BANK] = channel_output,
    [IMPORT_PLAIN] = import_to_plain,
    [IMPORT_HALF] = import_to_half_unit,
    [TEXT_WRITE] = write_text,
    [TEXT_READ] = read_text,
    [READ] = read_file,
    [WRITE] = write_file,
    [READING] = read_run,
    [BLOCK_SUM] = sum_block,
    [LISTING] = write_listing,
    [LISTING_IN_LITTLE_ROOM] = write_listing_in_little_room,
    [EACH_SUM] = each_sum,
};
