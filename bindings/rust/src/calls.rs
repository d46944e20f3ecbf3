//! The library's functions, each slice lent by the caller. They answer the
//! refusal's number, or 0, for every input: none has a condition.
//!
//! `answer` takes number, place, then records and words used of signals,
//! expressions and statements (lowering and `simulate`), and zeros. One that is
//! shorter than [`ANSWER`] is refused with 1 and gets as much as fits.

// In each line a slice: where it begins, and how many elements it has.
#[rustfmt::skip]
unsafe extern "C" {
    fn reamerpoppy_lower(
        words: *const u32, words_len: usize,
        signals: *mut u32, signals_len: usize,
        exprs: *mut u32, exprs_len: usize,
        stmts: *mut u32, stmts_len: usize,
        wires: *mut u32, wires_len: usize,
        places: *mut u32, places_len: usize,
        parts: *mut u32, parts_len: usize,
        values: *mut u32, values_len: usize,
        banks: *mut u32, banks_len: usize,
        answer: *mut u64, answer_len: usize,
    ) -> usize;

    fn reamerpoppy_run(
        signals: *const u32, signals_len: usize,
        exprs: *const u32, exprs_len: usize,
        stmts: *const u32, stmts_len: usize,
        bytes: *mut u8, bytes_len: usize,
        ticks: *const u8, ticks_len: usize,
        fires: u32,
        signal: u32,
        work_bits: *mut u8, work_bits_len: usize,
        work_exprs: *mut u8, work_exprs_len: usize,
        work_signals: *mut u8, work_signals_len: usize,
        answer: *mut u64, answer_len: usize,
    ) -> usize;

    fn reamerpoppy_simulate(
        words: *const u32, words_len: usize,
        heads: *const u32, heads_len: usize,
        bits: *const u8, bits_len: usize,
        signals: *mut u32, signals_len: usize,
        exprs: *mut u32, exprs_len: usize,
        stmts: *mut u32, stmts_len: usize,
        wires: *mut u32, wires_len: usize,
        places: *mut u32, places_len: usize,
        parts: *mut u32, parts_len: usize,
        values: *mut u32, values_len: usize,
        banks: *mut u32, banks_len: usize,
        bytes: *mut u8, bytes_len: usize,
        work_bits: *mut u8, work_bits_len: usize,
        work_exprs: *mut u8, work_exprs_len: usize,
        work_signals: *mut u8, work_signals_len: usize,
        answers: *mut u64, answers_len: usize,
        shown: *mut u8, shown_len: usize,
        answer: *mut u64, answer_len: usize,
    ) -> usize;
}

/// Words that each of lowering's five works must have.
pub const WORK: usize = 16_384;

/// Numbers that an answer must have room for.
pub const ANSWER: usize = 8;

/// A netlist's model in three lists: signals, expressions, statements. The works
/// are wires, places, parts, values and banks.
#[rustfmt::skip]
pub fn lower(
    words: &[u32],
    [signals, exprs, stmts]: [&mut [u32]; 3],
    [wires, places, parts, values, banks]: [&mut [u32]; 5],
    answer: &mut [u64],
) -> usize {
    // SAFETY: each pair is a slice, no two of those that are written overlap, and
    // the function stays within them (it is proved) whatever they hold.
    unsafe {
        reamerpoppy_lower(
            words.as_ptr(), words.len(),
            signals.as_mut_ptr(), signals.len(),
            exprs.as_mut_ptr(), exprs.len(),
            stmts.as_mut_ptr(), stmts.len(),
            wires.as_mut_ptr(), wires.len(),
            places.as_mut_ptr(), places.len(),
            parts.as_mut_ptr(), parts.len(),
            values.as_mut_ptr(), values.len(),
            banks.as_mut_ptr(), banks.len(),
            answer.as_mut_ptr(), answer.len(),
        )
    }
}

/// One tick of the model in three lists, on the signals' bytes. `fires` is 0 for
/// nothing, 1 for a rising and 2 for a falling edge of signal number `signal`. The
/// works are those of bits, expressions and signals. Takes 1.3 MB of stack.
#[rustfmt::skip]
pub fn run(
    [signals, exprs, stmts]: [&[u32]; 3],
    bytes: &mut [u8],
    ticks: &[u8],
    (fires, signal): (u32, u32),
    [work_bits, work_exprs, work_signals]: [&mut [u8]; 3],
    answer: &mut [u64],
) -> usize {
    // SAFETY: as in `lower`.
    unsafe {
        reamerpoppy_run(
            signals.as_ptr(), signals.len(),
            exprs.as_ptr(), exprs.len(),
            stmts.as_ptr(), stmts.len(),
            bytes.as_mut_ptr(), bytes.len(),
            ticks.as_ptr(), ticks.len(),
            fires,
            signal,
            work_bits.as_mut_ptr(), work_bits.len(),
            work_exprs.as_mut_ptr(), work_exprs.len(),
            work_signals.as_mut_ptr(), work_signals.len(),
            answer.as_mut_ptr(), answer.len(),
        )
    }
}

/// All that [`simulate`] is lent.
#[derive(Debug)]
pub struct Lent<'a> {
    /// For the model: signals, expressions, statements.
    pub lists: [&'a mut [u32]; 3],
    /// Lowering's five works, then the run's tables: what these have no room for is
    /// found by walking the lists.
    pub tables: [&'a mut [u32]; 5],
    /// A byte for each bit of the signals.
    pub bytes: &'a mut [u8],
    /// The run's works: of bits, of expressions, of signals.
    pub works: [&'a mut [u8]; 3],
    /// Two numbers a tick: number and place of its refusal, or zeros.
    pub answers: &'a mut [u64],
    /// The output ports' bits after each tick.
    pub shown: &'a mut [u8],
}

/// A netlist lowered, and a list of ticks made on its model, from signals of zeros.
/// `heads` has three words a tick: how many bits, what fires, of which signal (as in
/// [`run`]); `bits` has the bits of all ticks.
#[rustfmt::skip]
pub fn simulate(words: &[u32], heads: &[u32], bits: &[u8], lent: Lent, answer: &mut [u64]) -> usize {
    let Lent { lists, tables, bytes, works, answers, shown } = lent;
    let [signals, exprs, stmts] = lists;
    let [wires, places, parts, values, banks] = tables;
    let [work_bits, work_exprs, work_signals] = works;
    // SAFETY: as in `lower`.
    unsafe {
        reamerpoppy_simulate(
            words.as_ptr(), words.len(),
            heads.as_ptr(), heads.len(),
            bits.as_ptr(), bits.len(),
            signals.as_mut_ptr(), signals.len(),
            exprs.as_mut_ptr(), exprs.len(),
            stmts.as_mut_ptr(), stmts.len(),
            wires.as_mut_ptr(), wires.len(),
            places.as_mut_ptr(), places.len(),
            parts.as_mut_ptr(), parts.len(),
            values.as_mut_ptr(), values.len(),
            banks.as_mut_ptr(), banks.len(),
            bytes.as_mut_ptr(), bytes.len(),
            work_bits.as_mut_ptr(), work_bits.len(),
            work_exprs.as_mut_ptr(), work_exprs.len(),
            work_signals.as_mut_ptr(), work_signals.len(),
            answers.as_mut_ptr(), answers.len(),
            shown.as_mut_ptr(), shown.len(),
            answer.as_mut_ptr(), answer.len(),
        )
    }
}
