//! Changes to the words of a netlist, for the reader's refusals.

use crate::Rng;

/// Makes one change, sometimes two.
pub fn spoil(rng: &mut Rng, words: &mut Vec<u32>) {
    once(rng, words);
    if rng.chance(25) {
        once(rng, words);
    }
}

fn once(rng: &mut Rng, words: &mut Vec<u32>) {
    let length = words.len();
    if length < 4 {
        return;
    }
    let end = length - 4;
    match rng.below(12) {
        // Any word becomes another.
        0..5 if end > 0 => {
            let at = rng.below(end);
            words[at] = value(rng, words[at]);
        }
        // A word more or less.
        5 | 6 => words.insert(rng.below(end + 1), rng.below(20) as u32),
        7 | 8 if end > 0 => {
            words.remove(rng.below(end));
        }
        // Another trailer.
        9 | 10 => {
            let at = end + rng.below(4);
            words[at] = value(rng, words[at]);
        }
        // The file ends early.
        _ => words.truncate(rng.below(length)),
    }
}

/// A value near a bound that some word has.
fn value(rng: &mut Rng, old: u32) -> u32 {
    match rng.below(8) {
        0 => old.wrapping_add(1),
        1 => old.wrapping_sub(1),
        2 => rng.below(4) as u32,
        3 => rng.below(20) as u32,
        4 => rng.pick(&[255, 256, 257, 4_095, 4_096, 4_097]),
        5 => rng.pick(&[16_383, 16_384, 16_385, 16_386]),
        6 => rng.pick(&[65_535, 65_536, 0x8000_0000, u32::MAX]),
        _ => rng.next() as u32,
    }
}
