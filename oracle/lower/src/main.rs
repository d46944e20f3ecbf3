//! Prints the model of the netlist on standard input, or its refusal.
//!
//!     lower [--unchanged] [--netlist N] [--lists SIGNALS EXPRESSIONS STATEMENTS]
//!
//! All four lengths are in words and 16384 unless given. By the amended Rust, or
//! by the one that is unchanged.

use std::io::{Read, Write};

use lower::{DEFAULT_LENGTHS, Rust, answer, lower_by};
use netlist::{Limits, Refusal};

fn main() {
    let mut rust = Rust::Amended;
    let mut longest_netlist = 16_384;
    let mut lengths = DEFAULT_LENGTHS;
    let mut arguments = std::env::args().skip(1);
    let number = |text: Option<String>| -> usize {
        text.and_then(|text| text.parse().ok()).unwrap_or_else(|| usage())
    };
    while let Some(argument) = arguments.next() {
        match argument.as_str() {
            "--unchanged" => rust = Rust::Unchanged,
            "--netlist" => longest_netlist = number(arguments.next()),
            "--lists" => lengths = std::array::from_fn(|_| number(arguments.next())),
            _ => usage(),
        }
    }
    let mut bytes = Vec::new();
    std::io::stdin().read_to_end(&mut bytes).expect("standard input");
    let outcome = if !bytes.len().is_multiple_of(4) || bytes.len() / 4 > longest_netlist {
        Err(Refusal { number: 3, place: 0 })
    } else {
        let words = bytes
            .chunks_exact(4)
            .map(|bytes| u32::from_le_bytes(bytes.try_into().expect("four bytes")))
            .collect::<Vec<_>>();
        lower_by(rust, &words, &Limits::BASE, lengths)
    };
    std::io::stdout().write_all(answer(&outcome).as_bytes()).expect("standard output");
}

fn usage() -> ! {
    eprintln!(
        "usage: lower [--unchanged] [--netlist N] [--lists SIGNALS EXPRESSIONS STATEMENTS] < NETLIST"
    );
    std::process::exit(2)
}
