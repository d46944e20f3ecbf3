//! Writes the numbers on the command line as little-endian words, so that a
//! netlist can be typed by hand: `words 0 0 0 0 | lower`.

use std::io::Write;

fn main() {
    let words = std::env::args().skip(1).map(|text| {
        let number: u32 = text.trim_end_matches(',').parse().expect("a number below 2^32");
        number.to_le_bytes()
    });
    let bytes = words.collect::<Vec<_>>().concat();
    std::io::stdout().write_all(&bytes).expect("standard output");
}
