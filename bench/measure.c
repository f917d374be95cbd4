/* Runs the loops of all peers on the same work.
 *
 *   measure check       holds the answers of every peer to the library's and prints `ROW PEER PIECES` for each
 *   measure times       prints `ROW PEER PIECES NANOSECONDS` for each, the best of several turns
 *   measure ROW PEER N  runs one loop N times, for a counter of instructions
 *   measure file        writes the file of the most records, of version 1, for the listing programs
 */
#include <stdio.h>
#include <stdlib.h>
#include <string.h>
#include <time.h>

#include "sums.h"
#include "work.h"

enum { TURNS = 61, ODD_WORKS = 1000 };
/* What lent buffers hold before the call: neither a digit nor 0, so that a byte written behind the last named one, or
 * by a call that refuses, shows. */
enum { UNWRITTEN = 'u' };

extern loop *const library[LOOPS], *const call[LOOPS], *const inlined[LOOPS], *const second[LOOPS];

loop from_left_sum_block;
static loop *const from_left[LOOPS] = {[BLOCK_SUM] = from_left_sum_block};

#ifdef FIXMATH
void fixmath_prepare(const struct work *w);
loop fixmath_put_hand_out;
static loop *const fixmath[LOOPS] = {[PUT_HAND_OUT] = fixmath_put_hand_out};
#endif
#ifdef SYSTEMC
void systemc_prepare(const struct work *w);
loop systemc_put_hand_out;
static loop *const systemc[LOOPS] = {[PUT_HAND_OUT] = systemc_put_hand_out};
#endif

/* The first is the one that the others are held to. A peer that adds in another order may refuse others for 8; one with
 * rules of its own is only held near. */
enum rules { SAME_RULES, OTHER_ORDER, OWN_RULES };
static const struct peer {
    const char *name;
    loop *const *loops;
    enum rules rules;
} peers[] = {
    {"library", library, SAME_RULES},
    {"call", call, SAME_RULES},
    {"inlined", inlined, SAME_RULES},
    {"second", second, SAME_RULES},
    {"from-left", from_left, OTHER_ORDER},
#ifdef FIXMATH
    {"libfixmath", fixmath, OWN_RULES},
#endif
#ifdef SYSTEMC
    {"sc_fix_fast", systemc, OWN_RULES},
#endif
};
enum { PEERS = sizeof peers / sizeof *peers };

/* A repetition goes through all works of a row, and so through as many words or records in every row but that of the
 * longest block. Short files are several works, not one time and again, which a processor learns by heart; no branch of
 * a block sum goes by its records, so a block of 8,000 is one work. Every work has a file, also where its loop reads
 * none, and so every row the version of its files. Repetitions: enough for the clock. */
enum { PIECES = MOST_RECORDS, MOST_WORKS = 8 };
static const struct row {
    const char *name;
    int loop, version, pieces, works, repetitions;
} rows[] = {
    {"sum", SUM, VERSION_1, PIECES, 1, 50},
    {"cut", CUT, VERSION_1, PIECES, 1, 50},
    {"even-cut", EVEN_CUT, VERSION_1, PIECES, 1, 50},
    {"product", PRODUCT, VERSION_1, PIECES, 1, 50},
    {"put-hand-out", PUT_HAND_OUT, VERSION_1, PIECES, 1, 20},
    {"bank", BANK, VERSION_1, PIECES, 1, 20},
    {"import-plain", IMPORT_PLAIN, VERSION_1, PIECES, 1, 20},
    {"import-half", IMPORT_HALF, VERSION_1, PIECES, 1, 20},
    {"text-write", TEXT_WRITE, VERSION_1, PIECES, 1, 20},
    {"text-read", TEXT_READ, VERSION_1, PIECES, 1, 20},
    {"read", READ, VERSION_1, PIECES, 1, 100},
    {"write", WRITE, VERSION_1, PIECES, 1, 100},
    {"read-2", READ, VERSION_2, PIECES, 1, 100},
    {"write-2", WRITE, VERSION_2, PIECES, 1, 100},
    {"reading", READING, VERSION_1, PIECES, 1, 100},
    {"block-sum", BLOCK_SUM, VERSION_1, PIECES, 1, 20},
    {"block-sum-1000000", BLOCK_SUM, VERSION_1, MOST_SUMMED, 1, 1},
    {"listing", LISTING, VERSION_1, PIECES, 1, 5},
    {"listing-little", LISTING_IN_LITTLE_ROOM, VERSION_1, PIECES, 1, 5},
    {"listing-2", LISTING, VERSION_2, PIECES, 1, 5},
    {"read-1000", READ, VERSION_1, PIECES, MOST_WORKS, 100},
    {"write-1000", WRITE, VERSION_1, PIECES, MOST_WORKS, 100},
    {"listing-1000", LISTING, VERSION_1, PIECES, MOST_WORKS, 5},
};
enum { ROWS = sizeof rows / sizeof *rows };

static struct work works[MOST_WORKS];
static struct answers answers[2];

static int same_plain(frost_plain_answer x, frost_plain_answer y)
{
    return x.word.number == y.word.number && x.word.width == y.word.width && x.word.unit == y.word.unit &&
           x.refusal == y.refusal;
}

static int same_half_unit(frost_half_unit_answer x, frost_half_unit_answer y)
{
    return x.word.number == y.word.number && x.word.width == y.word.width && x.word.unit == y.word.unit &&
           x.refusal == y.refusal;
}

static int same_text(frost_text_answer x, frost_text_answer y)
{
    return same_word(x.word, y.word) && x.refusal == y.refusal && x.place == y.place;
}

static int same_written(frost_written x, frost_written y)
{
    return x.bytes == y.bytes && x.refusal == y.refusal;
}

static int same_written_text(const struct written_text *x, const struct written_text *y)
{
    return same_written(x->written, y->written) && memcmp(x->bytes, y->bytes, sizeof x->bytes) == 0;
}

static int same_block_sum(frost_block_sum_answer x, frost_block_sum_answer y)
{
    return same_word(x.word, y.word) && x.index == y.index && x.refusal == y.refusal;
}

static int same(const struct work *w, const struct answers *x, const struct answers *y)
{
    for (int i = 0; i < w->words; i++)
        if (!same_word(x->words[i].word, y->words[i].word) || x->words[i].refusal != y->words[i].refusal ||
            !same_sum(x->sums[i], y->sums[i]) || !same_text(x->texts[i], y->texts[i]) ||
            !same_written_text(&x->written_texts[i], &y->written_texts[i]) ||
            !same_plain(x->plains[i], y->plains[i]) || !same_half_unit(x->half_units[i], y->half_units[i]))
            return 0;
    return memcmp(&x->head, &y->head, sizeof x->head) == 0 &&
           memcmp(&x->reading, &y->reading, sizeof x->reading) == 0 && same_block_sum(x->block_sum, y->block_sum) &&
           memcmp(x->numbers, y->numbers, sizeof x->numbers) == 0 &&
           memcmp(x->rounds, y->rounds, sizeof x->rounds) == 0 && same_written(x->written, y->written) &&
           memcmp(x->bytes, y->bytes, sizeof x->bytes) == 0;
}

/* Also where a step of one does not fit and the other is done: that alone goes by the order. */
static int same_but_past(const struct work *w, const struct answers *x, const struct answers *y)
{
    uint32_t one = x->block_sum.refusal, other = y->block_sum.refusal;
    if ((one == DONE && other == ANSWER_DOES_NOT_FIT) || (one == ANSWER_DOES_NOT_FIT && other == DONE))
        return 1;
    return same(w, x, y);
}

/* All that was handed out is never further apart than one coarse unit. */
static int near(const struct work *w, const struct answers *x, const struct answers *y)
{
    int64_t apart = 0;
    for (int i = 0; i < w->words; i++) {
        apart += x->words[i].word.number + x->words[i].word.round - y->words[i].word.number;
        if (apart < -1 || 1 < apart)
            return 0;
    }
    return 1;
}

static int refused(const struct work *w, const struct answers *a)
{
    for (int i = 0; i < w->words; i++)
        if (a->words[i].refusal != DONE || a->written_texts[i].written.refusal != DONE || a->texts[i].refusal != DONE ||
            a->plains[i].refusal != DONE || a->half_units[i].refusal != DONE)
            return 1;
    return a->head.refusal != DONE || a->reading.refusal != DONE || a->written.refusal != DONE ||
           a->block_sum.refusal != DONE;
}

static void fail(const char *peer, const char *what)
{
    fprintf(stderr, "measure: %s: %s\n", peer, what);
    exit(1);
}

static void clear(struct answers *a, int words)
{
    memset(a, 0, sizeof *a);
    memset(a->numbers, UNWRITTEN, sizeof a->numbers);
    memset(a->rounds, UNWRITTEN, sizeof a->rounds);
    memset(a->bytes, UNWRITTEN, sizeof a->bytes);
    for (int i = 0; i < words; i++)
        memset(a->written_texts[i].bytes, UNWRITTEN, sizeof a->written_texts[i].bytes);
}

/* Leaves the library's answers of one loop in the first place and the peer's in the second. */
static void answer(int loop, const struct work *w, const struct peer *peer)
{
    clear(&answers[0], w->words);
    clear(&answers[1], w->words);
    library[loop](w, &answers[0]);
    peer->loops[loop](w, &answers[1]);
}

static void check_row(const struct row *row, const struct peer *peer)
{
    for (const struct work *w = works; w < works + row->works; w++) {
        answer(row->loop, w, peer);
        /* A refusal would be quick work. */
        if (refused(w, &answers[0]))
            fail(row->name, "the work is refused");
        if (!(peer->rules == OWN_RULES ? near : same)(w, &answers[0], &answers[1]))
            fail(peer->name, row->name);
    }
}

/* The same checks as the library: what it refuses, every peer with its rules refuses for the same cause. */
static void check_odd(void)
{
    for (uint64_t seed = 0; seed < ODD_WORKS; seed++) {
        make_odd_work(works, seed);
        for (int p = 1; p < PEERS; p++)
            for (int loop = 0; loop < LOOPS; loop++) {
                if (peers[p].loops[loop] == NULL || peers[p].rules == OWN_RULES)
                    continue;
                answer(loop, works, &peers[p]);
                if (!(peers[p].rules == OTHER_ORDER ? same_but_past : same)(works, &answers[0], &answers[1]))
                    fail(peers[p].name, "odd work");
            }
    }
}

static void prepare(const struct row *row)
{
    for (int i = 0; i < row->works; i++)
        make_work(&works[i], (uint64_t)i, &layouts[row->version], (uint32_t)(row->pieces / row->works));
#ifdef FIXMATH
    fixmath_prepare(works);
#endif
#ifdef SYSTEMC
    systemc_prepare(works);
#endif
}

static void check_all(void)
{
    check_odd();
    for (int r = 0; r < ROWS; r++) {
        prepare(&rows[r]);
        for (int p = 0; p < PEERS; p++)
            if (peers[p].loops[rows[r].loop] != NULL) {
                check_row(&rows[r], &peers[p]);
                printf("%s %s %d\n", rows[r].name, peers[p].name, rows[r].pieces);
            }
    }
}

static void repeat(const struct row *row, loop *run, int times)
{
    for (int i = 0; i < times; i++)
        for (int k = 0; k < row->works; k++)
            run(&works[k], answers);
}

static double nanoseconds(const struct row *row, loop *run)
{
    struct timespec from, to;
    /* Once unmeasured: the peer before has left its own code and bytes in the caches. */
    repeat(row, run, 1);
    clock_gettime(CLOCK_MONOTONIC, &from);
    repeat(row, run, row->repetitions);
    clock_gettime(CLOCK_MONOTONIC, &to);
    return ((double)(to.tv_sec - from.tv_sec) * 1e9 + (double)(to.tv_nsec - from.tv_nsec)) / row->repetitions;
}

/* All rows in every turn: a slow spell of the machine then costs each of them a turn, not one of them all its turns. */
static void print_times(void)
{
    static double best[ROWS][PEERS];
    for (int turn = 0; turn < TURNS; turn++)
        for (int r = 0; r < ROWS; r++) {
            prepare(&rows[r]);
            for (int p = 0; p < PEERS; p++)
                if (peers[p].loops[rows[r].loop] != NULL) {
                    double taken = nanoseconds(&rows[r], peers[p].loops[rows[r].loop]);
                    if (turn == 0 || taken < best[r][p])
                        best[r][p] = taken;
                }
        }
    for (int r = 0; r < ROWS; r++)
        for (int p = 0; p < PEERS; p++)
            if (peers[p].loops[rows[r].loop] != NULL)
                printf("%s %s %d %.0f\n", rows[r].name, peers[p].name, rows[r].pieces, best[r][p]);
}

static int run(const char *row, const char *peer, int repetitions)
{
    for (int r = 0; r < ROWS; r++)
        for (int p = 0; p < PEERS; p++) {
            loop *run = peers[p].loops[rows[r].loop];
            if (strcmp(row, rows[r].name) != 0 || strcmp(peer, peers[p].name) != 0 || run == NULL)
                continue;
            prepare(&rows[r]);
            repeat(&rows[r], run, repetitions);
            return 0;
        }
    fail(peer, row);
    return 1;
}

static int write_file(void)
{
    make_work(works, 0, &layouts[VERSION_1], PIECES);
    return fwrite(works->file, 1, works->length, stdout) == works->length ? 0 : 1;
}

int main(int argc, char **argv)
{
    const char *what = argc == 2 ? argv[1] : "";
    if (argc == 4)
        return run(argv[1], argv[2], atoi(argv[3]));
    if (strcmp(what, "file") == 0)
        return write_file();
    if (strcmp(what, "check") == 0) {
        check_all();
        return 0;
    }
    if (strcmp(what, "times") == 0) {
        print_times();
        return 0;
    }
    fputs("usage: measure check | times | file | ROW PEER N\n", stderr);
    return 2;
}
