//! What the builder keeps: three lists of records as words, and the order in
//! which the records came over all three lists.
//!
//! The lowering drops its builder when it refuses, so a builder hands its
//! recording over when it is dropped; `take` fetches the last one.

use std::cell::{Cell, RefCell};

pub const SIGNALS: usize = 0;
pub const EXPRESSIONS: usize = 1;
pub const STATEMENTS: usize = 2;

/// Signal labels, by number.
pub const LABELS: [&str; 16] = [
    "input", "output", "lut", "pfumx", "l6mux", "ccu", "mul", "ff", "ram", "dram", "io", "jtagg",
    "pll", "word", "zero", "one",
];

/// Expression kinds, by number.
pub const KINDS: [&str; 10] =
    ["const", "read", "concat", "not", "and", "or", "xor", "mux", "eq", "mul"];

/// Marks the owner in a cell's or port's name: `lut#3` is cell 3.
pub const OWNER_MARK: char = '#';

#[derive(Clone, Debug, Default, PartialEq, Eq)]
pub struct Recording {
    /// Per list: the records' words, each record led by its length.
    pub words: [Vec<u32>; 3],
    /// Per list: how many records came.
    pub count: [u32; 3],
    /// The list of each record, in the order in which the records came.
    pub events: Vec<u8>,
    /// Set once a list went past `keep`: from then on nothing is stored.
    pub cut: bool,
}

thread_local! {
    static LAST: RefCell<Option<Recording>> = const { RefCell::new(None) };
    static KEEP: Cell<usize> = const { Cell::new(usize::MAX) };
}

/// Bounds the words stored per list, so that a netlist of deep RAMs does not
/// fill the memory. The record that passes the bound is the last one stored:
/// lists no longer than the bound are full by then.
pub fn keep(words: usize) {
    KEEP.set(words);
}

/// The recording of the builder dropped last on this thread.
pub fn take() -> Option<Recording> {
    LAST.take()
}

pub(crate) fn put(recording: Recording) {
    LAST.set(Some(recording));
}

impl Recording {
    pub(crate) fn add(&mut self, list: usize, fields: &[u32]) -> u32 {
        let number = self.count[list];
        self.count[list] += 1;
        if !self.cut {
            let words = &mut self.words[list];
            words.push(fields.len() as u32 + 1);
            words.extend_from_slice(fields);
            self.cut = words.len() > KEEP.get();
            self.events.push(list as u8);
        }
        number
    }

    /// The records of a list, without their length words.
    pub fn records(&self, list: usize) -> Records<'_> {
        Records { words: &self.words[list] }
    }

    /// Plays the events into lists of the given lengths. The first record that
    /// does not fit gives its list's number.
    #[must_use]
    pub fn first_full(&self, lengths: [usize; 3]) -> Option<u32> {
        let mut at = [0usize; 3];
        for &list in &self.events {
            let list = usize::from(list);
            at[list] += self.words[list][at[list]] as usize;
            if at[list] > lengths[list] {
                return Some(list as u32);
            }
        }
        None
    }
}

pub struct Records<'a> {
    words: &'a [u32],
}

impl<'a> Iterator for Records<'a> {
    type Item = &'a [u32];

    fn next(&mut self) -> Option<&'a [u32]> {
        let length = *self.words.first()? as usize;
        let (record, rest) = self.words.split_at(length);
        self.words = rest;
        Some(&record[1..])
    }
}

/// Label and owner of an internal signal, told from the name that the lowering
/// gives it. Cells are named after their label, so `__struo_ram#4_read_a` and
/// `__struo_lut_lut#4_17` both say kind and cell.
pub(crate) fn label_and_owner(name: &str) -> (u32, u32) {
    let digits = |text: &str| -> u32 {
        let end = text.find(|c: char| !c.is_ascii_digit()).unwrap_or(text.len());
        text[..end].parse().expect("a number in a signal name")
    };
    if name == "__struo_constant_zero" {
        return (label("zero"), 0);
    }
    if name == "__struo_constant_one" {
        return (label("one"), 0);
    }
    if let Some(bank) = name.strip_prefix("__struo_ff_bank_") {
        return (label("ff"), digits(bank));
    }
    let (before, after) = name.split_once(OWNER_MARK).expect("a marked cell name");
    let kind = before.rsplit('_').next().expect("a cell kind");
    let kind = if after.contains("_word_") { "word" } else { kind };
    (label(kind), digits(after))
}

/// The port number in a port's name.
pub(crate) fn port_number(name: &str) -> u32 {
    let (_, number) = name.split_once(OWNER_MARK).expect("a marked port name");
    number.parse().expect("a port number")
}

pub(crate) fn label(name: &str) -> u32 {
    LABELS.iter().position(|label| *label == name).expect("a known label") as u32
}
