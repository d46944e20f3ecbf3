//! Batches of random netlists with their expected answers, those of the amended
//! Rust. Without a clock enable and a cell that reads a wire twice they are the
//! unchanged Rust's too.
//!
//!     bulk SEED COUNT BATCH EXPECTED   write a batch and its answers
//!     bulk --answers BATCH EXPECTED    write the answers of a batch that is there
//!     bulk SEED --text INDEX           print the full answer of one netlist
//!     bulk SEED --netlist INDEX        write the words of one netlist
//!     bulk SEED --lists INDEX          print its list lengths
//!     bulk SEED --tally COUNT          count the answers by refusal
//!
//! Both of the first say how many netlists have clock enables and cells that read a
//! wire twice. With `--clock-enables` or `--repeats` in front of SEED, all have.

use std::collections::BTreeMap;
use std::io::{BufWriter, Write};

use celox::recorder::{EXPRESSIONS, Recording};
use generate::{Focus, Rng};
use lower::{Rust, answer, lower, lower_by, spoken_of};
use netlist::{BlockRam, Limits, Refusal};

const ROOMY: [usize; 3] = [1 << 22; 3];

struct Item {
    words: Vec<u32>,
    lengths: [usize; 3],
    outcome: Result<Recording, Refusal>,
    /// What it has, for a reader.
    kinds: Vec<&'static str>,
}

/// A netlist with list lengths. Most get the lengths that `lower` lends; the
/// others get lists that end near the last record, or too early. Netlists drawn for
/// a request also get a list of expressions that ends with some record of
/// theirs, or a word before.
fn item(focus: Focus, seed: u64, index: u64) -> Item {
    let words = focus.sample(seed, index);
    let mut rng = Rng::new(!seed, index);
    let mut lengths = [16_384; 3];
    let (often, ways) = if focus == Focus::All { (20, 4) } else { (50, 7) };
    if rng.chance(often) {
        let whole = lower(&words, &Limits::BASE, ROOMY).ok();
        let used = whole
            .as_ref()
            .map_or([100, 200, 60], |recording| recording.words.each_ref().map(Vec::len));
        lengths = match rng.below(ways) {
            0 => used,
            1 => {
                let mut lengths = used;
                lengths[rng.below(3)] -= 1;
                lengths
            }
            2 => used.map(|used| used + rng.below(7)),
            3 => used.map(|used| rng.below(used + 40)),
            _ => {
                let ends = whole.as_ref().map_or_else(Vec::new, record_ends);
                let end = if ends.is_empty() { 200 } else { rng.pick(&ends) };
                [used[0], end - rng.below(2), used[2]]
            }
        };
    } else if rng.chance(10) {
        lengths = [1 << 20; 3];
    }
    Item::new(words, lengths)
}

impl Item {
    fn new(words: Vec<u32>, lengths: [usize; 3]) -> Self {
        let outcome = lower(&words, &Limits::BASE, lengths);
        let read = netlist::read_words(&words, &Limits::BASE).ok();
        let unchanged = !read.as_ref().is_some_and(spoken_of);
        if unchanged {
            let unchanged = lower_by(Rust::Unchanged, &words, &Limits::BASE, lengths);
            assert_eq!(outcome, unchanged, "{words:?}");
        }
        let mut kinds = vec![""];
        let mut add = |has: bool, kind| kinds.extend(has.then_some(kind));
        add(unchanged, ", by both Rusts");
        if let Some(netlist) = read {
            add(netlist.has_clock_enable(), ", clock enable");
            add(netlist.has_two_clock_enables(), ", clock enables in both ports");
            add(netlist.has_repeat(), ", wire read twice");
            let own = netlist.block_rams().any(BlockRam::shares_own_read);
            add(own, ", wire read twice by own read");
        }
        Self { words, lengths, outcome, kinds }
    }

    fn count(&self, tally: &mut BTreeMap<String, u64>) {
        let mut add = |end: &str| {
            for kind in &self.kinds {
                *tally.entry(format!("netlists{kind}{end}")).or_default() += 1;
            }
        };
        add("");
        match &self.outcome {
            Ok(recording) => {
                add(", accepted");
                let used = recording.words.iter().map(Vec::len);
                if used.zip(self.lengths).any(|(used, length)| used == length) {
                    add(", accepted with a list exactly full");
                }
            }
            Err(refusal) if refusal.number == 2 => add(", a list full"),
            Err(_) => {}
        }
    }
}

/// Where the expressions end, in words of their list.
fn record_ends(recording: &Recording) -> Vec<usize> {
    let mut end = 0;
    let lengths = recording.records(EXPRESSIONS).map(|fields| fields.len() + 1);
    let ends = lengths.map(|length| {
        end += length;
        end
    });
    ends.collect()
}

fn hash(words: impl Iterator<Item = u32>) -> u32 {
    words.fold(0, |hash: u32, word| hash.wrapping_mul(31).wrapping_add(word))
}

/// One line for an answer: the refusal, or records, words and hashes.
fn summary(outcome: &Result<Recording, Refusal>) -> String {
    match outcome {
        Err(_) => answer(outcome),
        Ok(recording) => {
            let [s, e, t] = recording.count;
            let [sw, ew, tw] = recording.words.each_ref().map(Vec::len);
            let words = hash(recording.words.iter().flatten().copied());
            let text = hash(answer(outcome).bytes().map(u32::from));
            format!("model {s} {e} {t} {sw} {ew} {tw} {words} {text}\n")
        }
    }
}

fn main() -> std::io::Result<()> {
    let mut arguments = std::env::args().skip(1).collect::<Vec<_>>();
    let focus = Focus::option(&mut arguments);
    let item = |seed: &str, index: u64| item(focus, number(seed), index);
    let arguments = arguments.iter().map(String::as_str).collect::<Vec<_>>();
    match arguments.as_slice() {
        [seed, "--text", index] => {
            print!("{}", answer(&item(seed, number(index)).outcome));
        }
        [seed, "--netlist", index] => {
            put_words(&mut std::io::stdout(), &item(seed, number(index)).words)?;
        }
        [seed, "--lists", index] => {
            let [s, e, t] = item(seed, number(index)).lengths;
            println!("{s} {e} {t}");
        }
        ["--answers", batch, expected] => {
            let mut expected = BufWriter::new(std::fs::File::create(expected)?);
            let batch = get_words(&std::fs::read(batch)?);
            let mut left = batch.as_slice();
            let mut tally = BTreeMap::new();
            while let Some((&[count, s, e, t], behind)) = left.split_first_chunk() {
                let (words, behind) = behind.split_at(count as usize);
                let item = Item::new(words.to_vec(), [s, e, t].map(|length| length as usize));
                item.count(&mut tally);
                expected.write_all(summary(&item.outcome).as_bytes())?;
                left = behind;
            }
            say(&tally);
        }
        [seed, "--tally", count] => tally((0..number(count)).map(|index| item(seed, index))),
        [seed, count, batch, expected] => {
            let mut batch = BufWriter::new(std::fs::File::create(batch)?);
            let mut expected = BufWriter::new(std::fs::File::create(expected)?);
            let mut tally = BTreeMap::new();
            for index in 0..number(count) {
                let item = item(seed, index);
                item.count(&mut tally);
                put_words(&mut batch, &[item.words.len() as u32])?;
                put_words(&mut batch, &item.lengths.map(|length| length as u32))?;
                put_words(&mut batch, &item.words)?;
                expected.write_all(summary(&item.outcome).as_bytes())?;
            }
            say(&tally);
        }
        _ => usage(),
    }
    Ok(())
}

fn get_words(bytes: &[u8]) -> Vec<u32> {
    let words = bytes.chunks_exact(4).map(|bytes| bytes.try_into().expect("four bytes"));
    words.map(u32::from_le_bytes).collect()
}

fn put_words(to: &mut impl Write, words: &[u32]) -> std::io::Result<()> {
    let bytes = words.iter().flat_map(|word| word.to_le_bytes()).collect::<Vec<_>>();
    to.write_all(&bytes)
}

fn number(text: &str) -> u64 {
    text.parse().unwrap_or_else(|_| usage())
}

fn tally(items: impl Iterator<Item = Item>) {
    let mut answers = BTreeMap::<u32, u64>::new();
    for item in items {
        let number = item.outcome.map_or_else(|refusal| refusal.number, |_| 0);
        *answers.entry(number).or_default() += 1;
    }
    for (number, count) in answers {
        println!("{number} {count}");
    }
}

fn say(tally: &BTreeMap<String, u64>) {
    for (what, times) in tally {
        println!("{times:9} {what}");
    }
}

fn usage() -> ! {
    eprintln!(
        "usage: bulk [FOCUS] SEED COUNT BATCH EXPECTED\n       bulk --answers BATCH EXPECTED\n       bulk [FOCUS] SEED --text|--netlist|--lists INDEX\n       bulk [FOCUS] SEED --tally COUNT\nFOCUS: --clock-enables | --repeats"
    );
    std::process::exit(2)
}
