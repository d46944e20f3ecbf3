/* Lowers a netlist of one LUT4 (an and of two input bits), prints what its model has, and its output for all inputs: by one call, and tick by tick. */
#include <inttypes.h>
#include <stdio.h>

#include "reamerpoppy.h"

#define LEN(a) (sizeof(a) / sizeof((a)[0]))
#define LENT(a) (a), LEN(a)

static const uint32_t words[] = {0, 2, 2, 3, 1, 1, 4, 0, 2, 3, 0, 0, 2, 8, 0, 2, 7, 1};
static const uint32_t heads[] = {2, 0, 0, 2, 0, 0, 2, 0, 0, 2, 0, 0};
static const uint8_t bits[] = {0, 0, 1, 0, 0, 1, 1, 1};

static uint32_t signals[64], exprs[64], stmts[64];
static uint32_t wires[REAMERPOPPY_WORK], places[REAMERPOPPY_WORK], parts[REAMERPOPPY_WORK], values[REAMERPOPPY_WORK], banks[REAMERPOPPY_WORK];
static uint8_t bytes[16], work_bits[32], work_exprs[16], work_signals[16];
static uint64_t answers[8], answer[REAMERPOPPY_ANSWER];
static uint8_t shown[4];

static int refused(void) {
    printf("refused %" PRIu64 " %" PRIu64 "\n", answer[0], answer[1]);
    return 1;
}

int main(void) {
    if (reamerpoppy_lower(LENT(words), LENT(signals), LENT(exprs), LENT(stmts), LENT(wires), LENT(places), LENT(parts), LENT(values), LENT(banks), LENT(answer)))
        return refused();
    printf("model %" PRIu64 " %" PRIu64 " %" PRIu64 "\n", answer[2], answer[4], answer[6]);
    size_t used[] = {answer[3], answer[5], answer[7]};

    if (reamerpoppy_simulate(LENT(words), LENT(heads), LENT(bits), LENT(signals), LENT(exprs), LENT(stmts), LENT(wires), LENT(places), LENT(parts), LENT(values), LENT(banks),
            LENT(bytes), LENT(work_bits), LENT(work_exprs), LENT(work_signals), LENT(answers), LENT(shown), LENT(answer)))
        return refused();

    /* Signal 0 is the input of two bits, signal 1 the output: byte 2. */
    for (size_t tick = 0; tick < LEN(shown); tick++) {
        if (reamerpoppy_run(signals, used[0], exprs, used[1], stmts, used[2], LENT(bytes), bits + 2 * tick, 2, 0, 0, LENT(work_bits), LENT(work_exprs), LENT(work_signals), LENT(answer)))
            return refused();
        printf("%d %d: %d %d\n", bits[2 * tick], bits[2 * tick + 1], shown[tick], bytes[2]);
    }
    return 0;
}
