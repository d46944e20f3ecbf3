//! Writes one random netlist, as words, to standard output.
//!
//!     generate [--clock-enables | --repeats] SEED INDEX [--runnable]

use std::io::Write;

use generate::Focus;

fn main() {
    let mut arguments = std::env::args().skip(1).collect::<Vec<_>>();
    let focus = Focus::option(&mut arguments);
    let number = |at: usize| arguments.get(at).and_then(|text| text.parse::<u64>().ok());
    let (Some(seed), Some(index)) = (number(0), number(1)) else {
        eprintln!(
            "usage: generate [--clock-enables | --repeats] SEED INDEX [--runnable] > NETLIST"
        );
        std::process::exit(2)
    };
    let words = if arguments.get(2).is_some_and(|option| option == "--runnable") {
        netlist::write(&focus.runnable(seed, index))
    } else {
        focus.sample(seed, index)
    };
    let bytes = words.iter().flat_map(|word| word.to_le_bytes()).collect::<Vec<_>>();
    std::io::stdout().write_all(&bytes).expect("standard output");
}
