/* What the header says of the stack: no call needs more than 64 KiB of it. Calls with buffers, and some without, run on
 * a thread whose stack was painted before; what is no longer painted was used, by the thread's own start and end too.
 * And what is proved of a block sum: how many of its calls stand within each other. */
#define _GNU_SOURCE
#include <pthread.h>
#include <stdio.h>
#include <string.h>
#include <sys/mman.h>

#include "frostuldi.h"

enum { ALLOWED = 65536, PAINTED = 16 * ALLOWED, PAINT = 0xA5, COUNT = FROST_MOST_RECORDS, MANY = 1 << 20 };

static int64_t numbers[COUNT];
static int64_t many_numbers[MANY];
static uint8_t many_rounds[MANY];
static size_t records = MANY;
static uint8_t rounds[COUNT], file[FROST_LONGEST_FILE], text[FROST_LONGEST_LISTING];
static const frost_round_bit word = {-1, 32, 0, 1};
static const frost_running_sum sum = {{0, 32, 0, 0}, 30};
#define TWICE(...) __VA_ARGS__, __VA_ARGS__
#define EIGHT(...) {TWICE(TWICE(TWICE(__VA_ARGS__)))}
static const frost_bank bank = {{[3] = {EIGHT({-1, 12, 0, 1})}}};
static const frost_window window = {EIGHT({-1, 16, 0, 1})};

/* Each answers what it was refused for. */
static uint32_t write_file(void)
{
    return frost_file_write(1, FROST_MOST_FILE_WIDTH, 0, numbers, COUNT, rounds, COUNT, file, sizeof file).refusal;
}
static uint32_t read_file(void) { return frost_file_read(file, sizeof file, numbers, COUNT, rounds, COUNT).refusal; }
static uint32_t read_run(void)
{
    return frost_reading_of_run(1, 24, numbers, COUNT, rounds, COUNT, 1, COUNT - 1).refusal;
}
static uint32_t sum_block(void)
{
    return frost_block_sum(FROST_MOST_BLOCK_SUM_WIDTH, 0, many_numbers, records, many_rounds, records).refusal;
}
static uint32_t list(void) { return frost_listing_text(file, sizeof file, text, sizeof text).refusal; }
static uint32_t list_counted(void) { return frost_listing_text(file, sizeof file, text, 200000).refusal; }
static uint32_t list_in_no_room(void) { return frost_listing_text(file, sizeof file, text, 0).refusal; }
static uint32_t write_digits(void) { return frost_digit_text_write(word, text, sizeof text).refusal; }
static uint32_t read_digits(void) { return frost_digit_text_read(text, word.width, 0).refusal; }
static uint32_t multiply(void) { return frost_round_bit_product(word, word).refusal; }
static uint32_t put(void) { return frost_running_sum_put(sum, word).refusal; }
static uint32_t hand_out(void) { return frost_running_sum_hand_out(sum).refusal; }
static uint32_t import_sample(void) { return frost_half_unit_from_binary64(frost_binary64_bits(-2.5), 32, 0).refusal; }
static uint32_t filter(void) { return frost_bank_output(bank, window, 3).refusal; }

/* In this order: what is written is read behind it. */
static struct call {
    const char *name;
    uint32_t (*run)(void);
    uint32_t expected, refusal;
} calls[] = {
    {"frost_file_write", write_file, 0, 0},
    {"frost_file_read", read_file, 0, 0},
    {"frost_reading_of_run", read_run, 0, 0},
    {"frost_block_sum", sum_block, 0, 0},
    {"frost_listing_text", list, 0, 0},
    {"frost_listing_text, counted first", list_counted, 0, 0},
    {"frost_listing_text, refused", list_in_no_room, 10, 0},
    {"frost_digit_text_write", write_digits, 0, 0},
    {"frost_digit_text_read", read_digits, 0, 0},
    {"frost_round_bit_product", multiply, 0, 0},
    {"frost_half_unit_from_binary64", import_sample, 0, 0},
    {"frost_running_sum_put", put, 0, 0},
    {"frost_running_sum_hand_out", hand_out, 0, 0},
    {"frost_bank_output", filter, 0, 0},
};
enum { CALLS = sizeof calls / sizeof *calls };

static void *start(void *call)
{
    struct call *c = call;
    c->refusal = c->run();
    return NULL;
}

/* Runs the call on this stack and answers how much of it was used; more than all of it where no thread can be had. */
static size_t used(uint8_t *stack, struct call *c)
{
    pthread_attr_t attributes;
    pthread_t thread;
    size_t left = 0;
    memset(stack, PAINT, PAINTED);
    if (pthread_attr_init(&attributes) != 0 || pthread_attr_setstack(&attributes, stack, PAINTED) != 0 ||
        pthread_create(&thread, &attributes, start, c) != 0 || pthread_join(thread, NULL) != 0)
        return PAINTED + 1;
    while (left < PAINTED && stack[left] == PAINT)
        left++;
    return PAINTED - left;
}

static size_t used_by_sum(uint8_t *stack, size_t count)
{
    struct call c = {"frost_block_sum", sum_block, 0, 0};
    records = count;
    return used(stack, &c);
}

/* One record is one call, and three are a call more: so many bytes, and as many for each call within it. Of 2^k records
 * and fewer than 2^(k+1) it is proved that k + 2 parts at most stand within each other; the halves of two records are no
 * calls of their own, so the calls are one fewer. An empty block is one. */
static const struct { size_t count, calls; } sums[] = {{0, 1}, {2, 2}, {3, 2}, {1000, 10}, {MANY - 1, 20}, {MANY, 21}};
enum { SUMS = sizeof sums / sizeof *sums };

static int too_deep(uint8_t *stack)
{
    size_t one = used_by_sum(stack, 1), call = used_by_sum(stack, 3) - one;
    int found = 0;
    for (size_t i = 0; i < SUMS; i++) {
        size_t bytes = used_by_sum(stack, sums[i].count);
        if (call == 0 || call > ALLOWED || bytes > one + call * (sums[i].calls - 1)) {
            printf("stack: a sum of %zu records: %zu bytes, of one %zu, a call %zu\n", sums[i].count, bytes, one, call);
            found++;
        }
    }
    return found;
}

int main(void)
{
    /* Below the stack lies as much again that nothing may touch. */
    uint8_t *mapped = mmap(NULL, 2 * PAINTED, PROT_NONE, MAP_PRIVATE | MAP_ANONYMOUS, -1, 0);
    if (mapped == MAP_FAILED || mprotect(mapped + PAINTED, PAINTED, PROT_READ | PROT_WRITE) != 0)
        return 2;
    int failed = 0;
    for (struct call *c = calls; c < calls + CALLS; c++) {
        size_t bytes = used(mapped + PAINTED, c);
        if (bytes > ALLOWED || c->refusal != c->expected) {
            printf("stack: %s: %zu bytes, refusal %u\n", c->name, bytes, (unsigned)c->refusal);
            failed++;
        }
    }
    failed += too_deep(mapped + PAINTED);
    printf("%d passed, %d failed\n", CALLS + SUMS - failed, failed);
    return failed != 0;
}
