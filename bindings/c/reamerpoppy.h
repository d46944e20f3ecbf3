/* The proved lowering of ECP5 netlists and the proved run of their models: link libcapi.a (`tools/build.sh capi`), on x86-64.
 *
 * A buffer is a pointer, never null, and how many elements it has. Those that are not const must not overlap any other. None needs to hold anything
 * but those that are const, and the signals' bytes of reamerpoppy_run. Every function answers 0 or a refusal's number (docs/REFUSALS.md),
 * for every input, and puts into `answer`: number, place; and where a netlist is accepted, records and words used of signals, of
 * expressions and of statements. Zeros stand behind them. An `answer` that is shorter than REAMERPOPPY_ANSWER is refused with 1, and gets as much
 * of number and place as fits: reamerpoppy_lower and reamerpoppy_simulate look at it directly after the five works, reamerpoppy_run after its
 * other buffers. */
#ifndef REAMERPOPPY_H
#define REAMERPOPPY_H

#include <stddef.h>
#include <stdint.h>

#ifdef __cplusplus
extern "C" {
#endif

/* Words that each of lowering's five works (wires to banks) must have. */
#define REAMERPOPPY_WORK 16384

/* Numbers that an answer must have room for. */
#define REAMERPOPPY_ANSWER 8

/* A netlist's model in the three lists. A list that is too short is refused with 2, and its place says which: lend a longer one. */
size_t reamerpoppy_lower(
    const uint32_t *words, size_t words_len,
    uint32_t *signals, size_t signals_len,
    uint32_t *exprs, size_t exprs_len,
    uint32_t *stmts, size_t stmts_len,
    uint32_t *wires, size_t wires_len,
    uint32_t *places, size_t places_len,
    uint32_t *parts, size_t parts_len,
    uint32_t *values, size_t values_len,
    uint32_t *banks, size_t banks_len,
    uint64_t *answer, size_t answer_len);

/* One tick of a model, whose lists have just the words used. `bytes` has a byte for each bit of each signal, 0 at first; `ticks` one for each bit
 * of the input and inout ports. `fires` is 0 for nothing, 1 for a rising and 2 for a falling edge of signal number `signal`. The works need a byte
 * for each bit of all expressions, for each expression, and for each signal. Takes 1.3 MB of stack. */
size_t reamerpoppy_run(
    const uint32_t *signals, size_t signals_len,
    const uint32_t *exprs, size_t exprs_len,
    const uint32_t *stmts, size_t stmts_len,
    uint8_t *bytes, size_t bytes_len,
    const uint8_t *ticks, size_t ticks_len,
    uint32_t fires,
    uint32_t signal,
    uint8_t *work_bits, size_t work_bits_len,
    uint8_t *work_exprs, size_t work_exprs_len,
    uint8_t *work_signals, size_t work_signals_len,
    uint64_t *answer, size_t answer_len);

/* A netlist and a list of ticks from signals of zeros. `heads` has three words a tick: how many bits, `fires`, `signal`; `bits` has the bits of all.
 * `answers` gets two numbers a tick, number and place of its refusal (14, 13) or zeros; `shown` the output ports' bits after each tick, as they stood
 * where it was refused. The whole is refused for the netlist or a short buffer. A head that asks for more bits than are left is a tick with a wrong count.
 * It is fast where wires and places have a word more than there are expressions, parts and values one more than signals, banks nine
 * for each expression and three for each signal, and work_bits a byte for each bit of all expressions and signals. */
size_t reamerpoppy_simulate(
    const uint32_t *words, size_t words_len,
    const uint32_t *heads, size_t heads_len,
    const uint8_t *bits, size_t bits_len,
    uint32_t *signals, size_t signals_len,
    uint32_t *exprs, size_t exprs_len,
    uint32_t *stmts, size_t stmts_len,
    uint32_t *wires, size_t wires_len,
    uint32_t *places, size_t places_len,
    uint32_t *parts, size_t parts_len,
    uint32_t *values, size_t values_len,
    uint32_t *banks, size_t banks_len,
    uint8_t *bytes, size_t bytes_len,
    uint8_t *work_bits, size_t work_bits_len,
    uint8_t *work_exprs, size_t work_exprs_len,
    uint8_t *work_signals, size_t work_signals_len,
    uint64_t *answers, size_t answers_len,
    uint8_t *shown, size_t shown_len,
    uint64_t *answer, size_t answer_len);

#ifdef __cplusplus
}
#endif

#endif
