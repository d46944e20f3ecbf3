use crate::calls::{self, Lent, WORK};
use crate::lowering::lower;
use crate::model::{Fired, Model};
use crate::refusal::Refusal;

/// One tick.
#[derive(Clone, Debug, Default, PartialEq, Eq)]
pub struct Tick {
    /// The bits of all input and inout ports in port order, lowest first.
    pub bits: Vec<u8>,
    pub fired: Fired,
}

/// Lowers a netlist and makes a list of ticks on its model, from signals of zeros.
/// A refused tick is one of the answers; the next goes on from the one before it.
pub fn simulate(words: &[u32], ticks: &[Tick]) -> Result<Shown, Refusal> {
    let model = lower(words)?;
    let mut buffers = Buffers::new(&model, ticks.len());
    let mut heads = Vec::new();
    let mut bits = Vec::new();
    for tick in ticks {
        // No model takes as many bits as a head cannot tell.
        let count = u32::try_from(tick.bits.len()).unwrap_or(u32::MAX);
        let (fires, signal) = tick.fired.words();
        heads.extend([count, fires, signal]);
        bits.extend_from_slice(&tick.bits[..count as usize]);
    }
    buffers.simulate(words, &heads, &bits)?;
    let Buffers { answers, shown, .. } = buffers;
    Ok(Shown { width: model.output_bits(), model, answers, bits: shown })
}

/// All that the library is lent to make ticks on one model, long enough for the
/// fast way. For many runs; [`simulate`] makes its own.
#[derive(Clone, Debug)]
pub struct Buffers {
    lists: [Vec<u32>; 3],
    tables: [Vec<u32>; 5],
    bytes: Vec<u8>,
    works: [Vec<u8>; 3],
    /// For each tick number and place of its refusal, or zeros.
    pub answers: Vec<u64>,
    /// After each tick the output ports' bits.
    pub shown: Vec<u8>,
}

impl Buffers {
    /// For at most so many ticks.
    #[must_use]
    pub fn new(model: &Model, ticks: usize) -> Self {
        let Model { signals, exprs, stmts } = model;
        let [s, e] = [signals, exprs].map(|list| list.count);
        let (signal_bits, expr_bits) = (signals.bits(), exprs.bits());
        Self {
            // Just the words used: all that is lent is cleared.
            lists: [signals, exprs, stmts].map(|list| vec![0; list.words.len()]),
            // Starts and offsets of expressions, offsets and drivers of signals; the
            // order, the code and the forms of expressions.
            tables: [e + 1, e + 1, s + 1, s + 1, 9 * e + 3 * s].map(|length| vec![0; length.max(WORK)]),
            bytes: vec![0; signal_bits],
            // The signals' bits stand behind the expressions'.
            works: [expr_bits + signal_bits, e, s].map(|length| vec![0; length]),
            answers: vec![0; 2 * ticks],
            shown: vec![0; model.output_bits() * ticks],
        }
    }

    /// A run of the netlist with that model; ticks as [`calls::simulate`] takes them.
    pub fn simulate(&mut self, words: &[u32], heads: &[u32], bits: &[u8]) -> Result<(), Refusal> {
        let lent = Lent {
            lists: self.lists.each_mut().map(Vec::as_mut_slice),
            tables: self.tables.each_mut().map(Vec::as_mut_slice),
            bytes: &mut self.bytes,
            works: self.works.each_mut().map(Vec::as_mut_slice),
            answers: &mut self.answers,
            shown: &mut self.shown,
        };
        let mut answer = [0; calls::ANSWER];
        calls::simulate(words, heads, bits, lent, &mut answer);
        Refusal::check(&answer)
    }
}

/// What a list of ticks has shown.
#[derive(Clone, Debug, PartialEq, Eq)]
pub struct Shown {
    /// The model that was run.
    pub model: Model,
    answers: Vec<u64>,
    bits: Vec<u8>,
    width: usize,
}

impl Shown {
    /// How many ticks there were.
    #[must_use]
    pub fn len(&self) -> usize {
        self.answers.len() / 2
    }

    #[must_use]
    pub fn is_empty(&self) -> bool {
        self.answers.is_empty()
    }

    /// The output ports' bits after a tick, in port order, lowest first, or why it was
    /// refused.
    ///
    /// # Panics
    ///
    /// If there was no such tick.
    pub fn tick(&self, at: usize) -> Result<&[u8], Refusal> {
        Refusal::check(&self.answers[2 * at..2 * at + 2])?;
        Ok(self.outputs(at))
    }

    /// The same bits also where the tick was refused: they are those of the tick before.
    ///
    /// # Panics
    ///
    /// If there was no such tick.
    #[must_use]
    pub fn outputs(&self, at: usize) -> &[u8] {
        assert!(at < self.len(), "tick {at} of {}", self.len());
        &self.bits[self.width * at..self.width * (at + 1)]
    }

    /// All ticks in order, as [`Shown::tick`] gives them.
    pub fn ticks(&self) -> impl Iterator<Item = Result<&[u8], Refusal>> {
        (0..self.len()).map(|at| self.tick(at))
    }
}
