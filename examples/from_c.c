#include "frostuldi.h"
#include <inttypes.h>
#include <stdio.h>

static void print(const char *call, frost_sum_answer a) {
    printf("%s: (%" PRId64 ",%d), width %" PRIu32 ", unit %" PRId32 ", refusal %" PRIu32 "\n", call,
           a.word.number, a.word.round, a.word.width, a.word.unit, a.refusal);
}

int main(void) {
    frost_round_bit three = {.number = 3, .width = 8}, wider = {.number = 3, .width = 9};
    frost_sum_answer a = frost_running_sum_open(8, 0, 2); /* width 8, unit 0, depth 2 */
    a = frost_running_sum_put(a.sum, three);
    a = frost_running_sum_hand_out(a.sum);
    print("hand out", a);
    a = frost_running_sum_put(a.sum, wider);
    print("put", a);
    a = frost_running_sum_empty(a.sum);
    print("empty", a);
}
