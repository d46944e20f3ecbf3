//! Writes the stored test set of the netlist reader.
//!
//!     reader-vectors TEXT BINARY [ALL_KINDS]
//!
//! The third file gets the words of the netlist with all cell kinds, which
//! lowering accepts too. The README gives the formats.

mod sheet;

use std::fmt::Write as _;

use netlist::{Limits, Refusal, read};
use sheet::{Class, Sheet};

struct Case {
    group: &'static str,
    base: usize,
    words: Vec<u32>,
    outcome: (u32, u32),
}

#[derive(Default)]
struct Set {
    bases: Vec<Vec<u32>>,
    cases: Vec<Case>,
}

impl Set {
    fn base(&mut self, words: &[u32]) -> usize {
        self.bases.push(words.to_vec());
        self.bases.len() - 1
    }

    /// A case with the answer that the reader gives.
    fn add(&mut self, group: &'static str, base: usize, words: Vec<u32>) -> (u32, u32) {
        let outcome = match read(&words, &Limits::BASE) {
            Ok(_) => (0, 0),
            Err(Refusal { number, place }) => (number, place),
        };
        self.cases.push(Case { group, base, words, outcome });
        outcome
    }

    /// A case whose answer is known beforehand.
    fn expect(&mut self, group: &'static str, base: usize, words: Vec<u32>, outcome: (u32, u32)) {
        let found = self.add(group, base, words);
        assert_eq!(found, outcome, "{group}: {:?}", self.cases.last().unwrap().words);
    }
}

const ACCEPTED: (u32, u32) = (0, 0);
const BAD_TRAILER: (u32, u32) = (3, 0);

fn with(words: &[u32], at: usize, value: u32) -> Vec<u32> {
    let mut words = words.to_vec();
    words[at] = value;
    words
}

/// The words without those from `from` to `to`.
fn without(words: &[u32], from: usize, to: usize) -> Vec<u32> {
    [&words[..from], &words[to..]].concat()
}

fn main() {
    let arguments = std::env::args().skip(1).collect::<Vec<_>>();
    let (text_file, binary_file) = match arguments.as_slice() {
        [text, binary] | [text, binary, _] => (text, binary),
        _ => {
            eprintln!("usage: reader-vectors TEXT BINARY [ALL_KINDS]");
            std::process::exit(2)
        }
    };
    let mut set = Set::default();
    let whole = sheet::all_kinds();
    whole_netlist(&mut set, &whole);
    trailers(&mut set, &whole);
    for single in sheet::singles() {
        single_record(&mut set, &single);
    }
    ports(&mut set);
    wires(&mut set);
    depths(&mut set);
    second_ports(&mut set);
    short_and_empty(&mut set);
    order(&mut set);

    std::fs::write(text_file, text(&set)).expect("the text file");
    std::fs::write(binary_file, bytes(&binary(&set))).expect("the binary file");
    if let Some(file) = arguments.get(2) {
        std::fs::write(file, bytes(&whole.words)).expect("the netlist file");
    }
    eprintln!("{} cases", set.cases.len());
}

/// The netlist with all kinds: cut everywhere, and a bad word in each stretch
/// of like words.
fn whole_netlist(set: &mut Set, whole: &Sheet) {
    let words = &whole.words;
    let (end, cells) = (words.len() - 4, whole.start_of_cells);
    let base = set.base(words);
    set.expect("all kinds", base, words.clone(), ACCEPTED);
    for length in 0..words.len() {
        set.add("cut at the end of the file", base, words[..length].to_vec());
    }
    for at in cells..end {
        set.expect("cells cut, trailer kept", base, without(words, at, end), (4, at as u32));
    }
    for at in 0..end {
        let class = whole.classes[at];
        let same = |other: usize| whole.classes.get(other) == Some(&class) && other < end;
        let inside = at > 0 && same(at - 1) && same(at + 1);
        let middle = inside && at % 32 == 7;
        if !inside || middle {
            let word = class.not_allowed()[0];
            set.expect("bad word", base, with(words, at, word), (5, at as u32));
        }
    }
    for at in (0..cells).step_by(2) {
        set.expect("ports too short", base, with(words, end + 2, at as u32), (4, at as u32));
    }
    for at in [cells + 1, cells + 2, end - 1, end] {
        let place = cells as u32;
        set.expect("words left in ports", base, with(words, end + 2, at as u32), (4, place));
    }
    let place = whole.records[whole.port_count - 1] as u32;
    let fewer = with(words, end + 1, whole.port_count as u32 - 1);
    set.expect("a port left over", base, fewer, (4, place));
    let place = *whole.records.last().unwrap() as u32;
    let fewer = with(words, end + 3, whole.cell_count as u32 - 1);
    set.expect("a cell left over", base, fewer, (4, place));
    let more = with(words, end + 1, whole.port_count as u32 + 1);
    set.expect("a port missing", base, more, (4, cells as u32));
    let more = with(words, end + 3, whole.cell_count as u32 + 1);
    set.expect("a cell missing", base, more, (4, end as u32));
    for word in [0, 1, u32::MAX] {
        let mut words = words.clone();
        words.insert(end, word);
        set.expect("a word left over", base, words, (4, end as u32));
    }
    let mut words = words.clone();
    words.insert(cells, 0);
    words[end + 3] += 1;
    set.expect("a word left over", base, words, (4, cells as u32));
}

fn trailers(set: &mut Set, whole: &Sheet) {
    let end = whole.words.len() - 4;
    let base = 0;
    for word in [1, 4, u32::MAX] {
        let words = with(&whole.words, end, word);
        set.expect("start of ports not 0", base, words, BAD_TRAILER);
    }
    for word in [257, 65_536, u32::MAX] {
        set.expect("port count", base, with(&whole.words, end + 1, word), BAD_TRAILER);
    }
    for word in [4_097, 65_536, u32::MAX] {
        set.expect("cell count", base, with(&whole.words, end + 3, word), BAD_TRAILER);
    }
    for word in [end as u32 + 1, end as u32 + 4, end as u32 + 5, u32::MAX] {
        set.expect("start of cells", base, with(&whole.words, end + 2, word), BAD_TRAILER);
    }
    for at in 1..4 {
        let largest = [0, 256, end as u32, 4_096][at];
        set.add("largest in the trailer", base, with(&whole.words, end + at, largest));
    }
}

/// A netlist of one record behind a port: every word replaced by what is not
/// allowed there and by the largest that is, and cut everywhere.
fn single_record(set: &mut Set, single: &Sheet) {
    let words = &single.words;
    let end = words.len() - 4;
    let first = *single.records.last().unwrap();
    let base = set.base(words);
    set.expect("single record", base, words.clone(), ACCEPTED);
    for at in first..end {
        for word in single.classes[at].not_allowed() {
            set.expect("bad word", base, with(words, at, word), (5, at as u32));
        }
        let largest = single.classes[at].largest();
        if largest != words[at] {
            set.add("largest word", base, with(words, at, largest));
        }
        if single.cell_count == 1 {
            set.expect("cell cut", base, without(words, at, end), (4, at as u32));
        } else {
            let mut words = without(words, at, end);
            words[at + 2] = at as u32;
            set.expect("port cut", base, words, (4, at as u32));
        }
    }
}

/// A netlist of these ports and cells, given as words.
fn netlist(ports: &[&[u32]], cells: &[&[u32]]) -> Vec<u32> {
    let mut words = ports.concat();
    let start_of_cells = words.len() as u32;
    words.extend(cells.concat());
    words.extend([0, ports.len() as u32, start_of_cells, cells.len() as u32]);
    words
}

fn ports(set: &mut Set) {
    let base = set.base(&[0; 4]);
    for width in [0, 1, 2, 255, 256, 257] {
        let bits = (0..width).map(|bit| bit + 2).collect::<Vec<_>>();
        for direction in 0..3 {
            let port = [&[direction, width], &bits[..]].concat();
            let outcome = if width == 0 || width == 257 { (5, 1) } else { ACCEPTED };
            set.expect("port width", base, netlist(&[&port], &[]), outcome);
        }
    }
    for count in [255usize, 256, 257] {
        let port: &[u32] = &[1, 1, 0];
        let outcome = if count == 257 { BAD_TRAILER } else { ACCEPTED };
        set.expect("port count", base, netlist(&vec![port; count], &[]), outcome);
    }
    // 4,096 cells do not fit in 16,384 words; the count alone is judged first.
    set.expect("cell count", base, vec![0, 0, 0, 4_096], (4, 0));
    set.expect("cell count", base, vec![0, 0, 0, 4_097], BAD_TRAILER);
    set.expect("port count", base, vec![0, 256, 0, 0], (4, 0));
    set.expect("port count", base, vec![0, 257, 0, 0], BAD_TRAILER);
}

fn wires(set: &mut Set) {
    let base = set.base(&netlist(&[&[0, 1, 2]], &[&[8, 0, 0, 0, 0]]));
    for (wire, allowed) in [(16_382, true), (16_383, true), (16_384, false), (16_385, false)] {
        let outcome = |place| if allowed { ACCEPTED } else { (5, place) };
        let words = netlist(&[&[0, 1, 2]], &[&[8, wire, 0, 0, 0]]);
        set.expect("wire word", base, words, outcome(4));
        let words = netlist(&[&[0, 1, 2]], &[&[8, 0, 0, wire, 0]]);
        set.expect("wire word", base, words, outcome(6));
        let words = netlist(&[&[0, 1, wire + 2]], &[&[8, 0, 0, 0, 0]]);
        set.expect("bit word", base, words, outcome(2));
        let words = netlist(&[&[0, 1, 2]], &[&[8, 0, wire + 2, 0, 0]]);
        set.expect("bit word", base, words, outcome(5));
        let words = netlist(&[&[0, 1, 2]], &[&[8, 0, 0, 0, wire + 2]]);
        set.expect("bit word", base, words, outcome(7));
    }
}

fn depths(set: &mut Set) {
    let ram = |depth, physical| {
        let mut sheet = Sheet::default();
        sheet.port(0, &[2]);
        sheet.block_ram(depth, 1, physical, 3, None);
        sheet.finish()
    };
    let base = set.base(&ram(1, 1).words);
    // The record starts at word 3: depth is word 4, physical width word 6.
    for (depth, outcome) in [
        (0, (5, 4)),
        (1, ACCEPTED),
        (2, ACCEPTED),
        (3, ACCEPTED),
        (16_384, ACCEPTED),
        (16_385, (5, 4)),
        (u32::MAX, (5, 4)),
    ] {
        set.expect("depth", base, ram(depth, 1).words, outcome);
    }
    for (physical, deepest) in [(1, 16_384), (2, 8_192), (4, 4_096), (9, 2_048), (18, 1_024)] {
        set.expect("physical width", base, ram(deepest, physical).words, ACCEPTED);
        let beyond = if physical == 1 { (5, 4) } else { (5, 6) };
        set.expect("physical width", base, ram(deepest + 1, physical).words, beyond);
        let half = deepest / 2 + 1;
        set.expect("physical width", base, ram(half, physical).words, ACCEPTED);
    }
    for physical in [0, 3, 5, 8, 10, 16, 17, 19, 36, u32::MAX] {
        set.expect("physical width", base, ram(1, physical).words, (5, 6));
    }
    // A bad word width stands left of a bad physical width.
    let mut words = ram(1_025, 18).words;
    words[5] = 19;
    set.expect("word width", base, words, (5, 5));
}

fn second_ports(set: &mut Set) {
    let ram = |clock, edge| {
        let mut sheet = Sheet::default();
        sheet.port(0, &[2]);
        sheet.port(0, &[3]);
        sheet.block_ram(2, 1, 1, 3, Some((clock, edge)));
        sheet.finish().words
    };
    // The first port runs on wire 0, rising.
    let base = set.base(&ram(2, 0));
    set.expect("second port", base, ram(2, 0), ACCEPTED);
    for (clock, edge) in [(3, 0), (2, 1), (3, 1), (0, 0), (1, 0)] {
        set.expect("second port", base, ram(clock, edge), (6, 0));
    }
    let two = |first: u32, second: u32| {
        let mut sheet = Sheet::default();
        sheet.port(0, &[2]);
        sheet.cell_lut4(&[0, 0, 0, 0], 20, 1);
        sheet.block_ram(2, 1, 1, 3, Some((2, first)));
        sheet.block_ram(2, 1, 1, 5, Some((2, second)));
        sheet.finish().words
    };
    let base = set.base(&two(0, 0));
    set.expect("second port", base, two(0, 0), ACCEPTED);
    set.expect("second port", base, two(1, 0), (6, 1));
    set.expect("second port", base, two(0, 1), (6, 2));
    set.expect("second port", base, two(1, 1), (6, 1));
    // A bad word behind the first fault of this kind comes first.
    let mut words = two(1, 0);
    let last = words.len() - 5;
    words[last] = 16_384;
    set.expect("second port", base, words, (5, last as u32));
    let mut words = two(1, 0);
    words.insert(last, 0);
    set.expect("second port", base, words, (4, last as u32 + 1));
    // A flagged distributed RAM is no fault of the words.
    let mut sheet = Sheet::default();
    sheet.port(0, &[2]);
    sheet.distributed_ram(3, 1);
    set.expect("second port", base, sheet.finish().words, ACCEPTED);
}

fn short_and_empty(set: &mut Set) {
    let base = set.base(&[0; 4]);
    for length in 0..4 {
        set.expect("fewer than four words", base, vec![0; length], BAD_TRAILER);
    }
    set.expect("empty netlist", base, vec![0; 4], ACCEPTED);
    set.expect("empty netlist", base, vec![7, 0, 0, 0, 0], (4, 0));
    set.expect("empty netlist", base, vec![7, 0, 0, 1, 0], (4, 0));
    set.expect("empty netlist", base, vec![0, 0, 1, 0], BAD_TRAILER);
}

/// Two faults at once: the one that counts comes first.
fn order(set: &mut Set) {
    let base = set.base(&netlist(&[&[0, 1, 2]], &[&[8, 0, 0, 1, 0]]));
    let words = vec![3, 1, 2, 11, 0, 0, 1, 0, 0, 1, 3, 1];
    set.expect("two bad words", base, words, (5, 0));
    // A word left over in the ports, a bad cell behind it.
    let words = vec![0, 1, 2, 0, 11, 0, 0, 1, 0, 0, 1, 4, 1];
    set.expect("left over, then bad", base, words, (4, 3));
    // A port that is too short, a bad cell behind it.
    let words = vec![0, 2, 2, 11, 0, 0, 1, 0, 0, 1, 3, 1];
    set.expect("too short, then bad", base, words, (4, 3));
    // A bad port in a section that is too short further on.
    let words = vec![0, 3, 20_000, 11, 0, 0, 1, 0, 0, 1, 3, 1];
    set.expect("bad, then too short", base, words, (5, 2));
    // A bad cell, and a count that asks for more cells than there are.
    let words = vec![0, 1, 2, 8, 0, 0, 1, 16_386, 0, 1, 3, 2];
    set.expect("bad, then too short", base, words, (5, 7));
    // Everything wrong, but the trailer is judged first.
    let words = vec![9, 9, 9, 9, 9, 9, 9, 9, 0, 300, 3, 1];
    set.expect("trailer first", base, words, BAD_TRAILER);
}

/// Each case as a change to a base netlist.
fn text(set: &Set) -> String {
    let mut text = String::new();
    let numbers = |words: &[u32]| words.iter().map(|word| format!(" {word}")).collect::<String>();
    for (index, base) in set.bases.iter().enumerate() {
        writeln!(text, "base {index} {}{}", base.len(), numbers(base)).unwrap();
    }
    let mut group = "";
    for case in &set.cases {
        if case.group != group {
            group = case.group;
            writeln!(text, "# {group}").unwrap();
        }
        let base = &set.bases[case.base];
        let same = |(left, right): &(&u32, &u32)| left == right;
        let shorter = base.len().min(case.words.len());
        let prefix = base.iter().zip(&case.words).take_while(same).count();
        let suffix = base.iter().rev().zip(case.words.iter().rev()).take_while(same).count();
        let suffix = suffix.min(shorter - prefix);
        let new = &case.words[prefix..case.words.len() - suffix];
        let dropped = base.len() - prefix - suffix;
        let (number, place) = case.outcome;
        let length = new.len();
        let new = numbers(new);
        let base = case.base;
        writeln!(text, "case {number} {place} {base} {prefix} {dropped} {length}{new}").unwrap();
    }
    text
}

fn binary(set: &Set) -> Vec<u32> {
    let mut words = vec![set.cases.len() as u32];
    for case in &set.cases {
        words.extend([case.outcome.0, case.outcome.1, case.words.len() as u32]);
        words.extend(&case.words);
    }
    words
}

fn bytes(words: &[u32]) -> Vec<u8> {
    words.iter().flat_map(|word| word.to_le_bytes()).collect()
}

impl Class {
    /// Values just outside of what is allowed; the first is the nearest above,
    /// where there is one.
    fn not_allowed(self) -> Vec<u32> {
        match self {
            Self::Direction => vec![3],
            Self::Width => vec![257, 0],
            Self::Bit => vec![16_386],
            Self::Wire => vec![16_384, u32::MAX],
            Self::Init => vec![65_536],
            Self::Flag => vec![2],
            Self::Zero => vec![1],
            Self::Kind => vec![11, u32::MAX],
            Self::Depth => vec![16_385, 0],
            Self::WordWidth => vec![19, 0],
            Self::PhysicalWidth => vec![19, 3, 0],
            Self::Count => vec![5],
        }
    }

    fn largest(self) -> u32 {
        match self {
            Self::Direction => 2,
            Self::Width => 256,
            Self::Bit => 16_385,
            Self::Wire => 16_383,
            Self::Init => 65_535,
            Self::Flag => 1,
            Self::Zero => 0,
            Self::Kind => 10,
            Self::Depth => 16_384,
            Self::WordWidth => 18,
            Self::PhysicalWidth => 18,
            Self::Count => 4,
        }
    }
}
