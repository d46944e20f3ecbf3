//! The ticks that every runner gets, and the output words that it must show.

use generate::Rng;

/// Ports of every netlist: the clock, a reset, 32 inputs, 32 outputs.
pub const DATA: usize = 32;
/// Tick bits: those of the three input ports.
pub const BITS: usize = 2 + DATA;
/// The clock's signal: ports come first in a model.
const CLOCK: u32 = 0;
const RISES: u32 = 1;

pub struct Ticks {
    /// Reset and inputs of each tick.
    pub inputs: Vec<(bool, u32)>,
    heads: Vec<u32>,
    bits: Vec<u8>,
    pub shown_bits: usize,
}

impl Ticks {
    /// Random inputs; the reset is asserted in one tick of 64. The clock rises in each.
    pub fn draw(seed: u64, count: usize) -> Self {
        let mut rng = Rng::new(seed, 1);
        let inputs = (0..count).map(|_| (rng.below(64) == 0, rng.next() as u32));
        let inputs = inputs.collect::<Vec<_>>();
        let bits = inputs.iter().flat_map(|&(reset, data)| {
            let data = (0..DATA).map(move |at| (data >> at & 1) as u8);
            [1, u8::from(reset)].into_iter().chain(data)
        });
        Self {
            heads: inputs.iter().flat_map(|_| [BITS as u32, RISES, CLOCK]).collect(),
            bits: bits.collect(),
            shown_bits: DATA,
            inputs,
        }
    }

    pub fn len(&self) -> usize {
        self.inputs.len()
    }

    /// Heads and bits of the first ticks.
    pub fn first(&self, count: usize) -> (&[u32], &[u8]) {
        (&self.heads[..3 * count], &self.bits[..BITS * count])
    }

    pub fn one(&self, at: usize) -> (&[u32], &[u8]) {
        (&self.heads[3 * at..3 * at + 3], &self.bits[BITS * at..BITS * (at + 1)])
    }

    /// What the program `simulate` reads: all ticks, and a netlist (docs/SIMULATE.md).
    pub fn session(&self, words: &[u32]) -> Vec<u8> {
        let lead = [self.len() as u32, self.bits.len() as u32];
        let bytes = |words: &[u32]| words.iter().flat_map(|word| word.to_le_bytes()).collect::<Vec<_>>();
        let mut session = bytes(&lead);
        session.extend(bytes(&self.heads));
        session.extend(&self.bits);
        session.resize(session.len().next_multiple_of(4), 0);
        session.extend(bytes(words));
        session
    }

    /// Output bits, a byte each, as words.
    pub fn words(&self, bits: &[u8]) -> Vec<u32> {
        let word = |bits: &[u8]| bits.iter().rev().fold(0, |word, &bit| word << 1 | u32::from(bit));
        bits.chunks(self.shown_bits).map(word).collect()
    }
}
