//! The program `simulate` by the independent simulators.
//!
//!     simulate < CASE
//!     simulate --batch < BATCH
//!
//! A batch has many cases, each after a word with its length in words.

use std::io::{Read, Write};

use simulate::{Case, refused};

fn main() {
    let batch = std::env::args().nth(1).is_some_and(|option| option == "--batch");
    let mut bytes = Vec::new();
    std::io::stdin().read_to_end(&mut bytes).expect("standard input");
    let mut output = std::io::BufWriter::new(std::io::stdout());
    let mut put = |case: Option<Case>| {
        let lines = case.map_or_else(|| refused(3, 0), |case| case.answer());
        output.write_all(lines.as_bytes()).expect("standard output");
    };
    let whole = bytes.len().is_multiple_of(4);
    let words = bytes
        .chunks_exact(4)
        .map(|bytes| u32::from_le_bytes(bytes.try_into().expect("four bytes")))
        .collect::<Vec<_>>();
    if batch {
        let mut left = words.as_slice();
        while let Some((&length, behind)) = left.split_first() {
            let (case, behind) = behind.split_at(length as usize);
            put(Case::read(case));
            left = behind;
        }
    } else {
        put(if whole { Case::read(&words) } else { None });
    }
}
