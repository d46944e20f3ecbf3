//! Random cases for `simulate`, and what it must print.
//!
//!     simulate-cases [--clock-enables | --repeats] SEED CASES TICKS WORDS BATCH EXPECTED
//!
//! Most netlists are meant to be run; some have faults, and some close loops.
//! Netlists of more than WORDS words are left out, and those that ask for longer
//! lists or works than the proved programs lend. The README gives the formats.

use std::collections::BTreeMap;
use std::io::{BufWriter, Write};

use cells::Circuit;
use generate::Focus;
use model::Model;
use netlist::{BlockRam, Limits};
use simulate::{Case, LISTS, NETLIST, TICKS};

fn main() -> std::io::Result<()> {
    let mut arguments = std::env::args().skip(1).collect::<Vec<_>>();
    let focus = Focus::option(&mut arguments);
    let number = |at: usize| arguments.get(at).and_then(|text| text.parse::<u64>().ok());
    let (Some(seed), Some(cases), Some(ticks), Some(words), [_, _, _, _, batch, expected]) =
        (number(0), number(1), number(2), number(3), arguments.as_slice())
    else {
        eprintln!(
            "usage: simulate-cases [--clock-enables | --repeats] SEED CASES TICKS WORDS BATCH EXPECTED"
        );
        std::process::exit(2)
    };
    let ticks = (ticks as usize).min(TICKS);
    let longest = (words as usize).min(NETLIST);
    let mut batch = BufWriter::new(std::fs::File::create(batch)?);
    let mut expected = BufWriter::new(std::fs::File::create(expected)?);
    let mut tally = BTreeMap::<String, u64>::new();
    let (mut made, mut index) = (0, 0);
    while made < cases {
        let case = Case::draw_for(focus, seed, index, ticks);
        index += 1;
        let words = case.write();
        let Some(read) = Case::read(&words).filter(|_| case.netlist.len() <= longest) else {
            continue;
        };
        assert_eq!(read, case);
        if !case.fits() {
            continue;
        }
        made += 1;
        for word in [words.len() as u32].iter().chain(&words) {
            batch.write_all(&word.to_le_bytes())?;
        }
        let lines = case.answer();
        expected.write_all(lines.as_bytes())?;
        count(&mut tally, &case, &lines);
    }
    for (what, times) in tally {
        println!("{times:9} {what}");
    }
    Ok(())
}

/// What has been drawn, for a reader.
fn count(tally: &mut BTreeMap<String, u64>, case: &Case, lines: &str) {
    let mut add = |what: String, times: usize| *tally.entry(what).or_default() += times as u64;
    add("cases".to_owned(), 1);
    add("netlist words".to_owned(), case.netlist.len());
    let whole = lower::lower(&case.netlist, &Limits::BASE, LISTS).ok().map(|recording| {
        let lists = recording.words.each_ref().map(Vec::as_slice);
        Model::new(lists).expect("a model of the Rust is well formed")
    });
    let Some(model) = whole else {
        let number = lines.split(' ').nth(1).expect("a refusal");
        return add(format!("cases refused with {number}"), 1);
    };
    add("cases with a loop".to_owned(), model.on_loop().is_some().into());
    add("ticks".to_owned(), case.ticks.len());
    for (line, tick) in lines.lines().zip(&case.ticks) {
        if let Some(refusal) = line.strip_prefix("refused ") {
            let number = refusal.split(' ').next().expect("a number");
            let cause = match () {
                () if number == "13" => "a loop",
                () if tick.asked as usize > tick.bits.len() => "bits that are not there",
                () if tick.bits.len() != model.input_bits() => "count of bits",
                () if tick.bits.iter().any(|&bit| bit > 1) => "a bit",
                () if tick.fires > 2 => "edge",
                () => "signal",
            };
            add(format!("ticks refused with {number}, {cause}"), 1);
        }
    }
    let netlist = netlist::read(&case.netlist, &Limits::BASE).expect("lowering accepts it");
    let circuit = Circuit::new(&netlist);
    let only_cells = circuit.has_loop() && model.on_loop().is_none();
    add("cells form a loop, the model's assignments do not".to_owned(), only_cells.into());
    let mut clocks = circuit.clocks();
    clocks.sort_unstable();
    clocks.dedup();
    add("cases with several clocks".to_owned(), usize::from(clocks.len() > 1));
    add("cases with a clock enable".to_owned(), netlist.has_clock_enable().into());
    add(
        "cases with clock enables in both ports".to_owned(),
        netlist.has_two_clock_enables().into(),
    );
    add("cases with a wire read twice".to_owned(), netlist.has_repeat().into());
    let own = netlist.block_rams().any(BlockRam::shares_own_read);
    add("cases with a wire read twice by an own read".to_owned(), own.into());
    for cell in &netlist.cells {
        let text = format!("{cell:?}");
        let kind = text.split([' ', '(']).next().expect("a name").to_owned();
        let asynchronous = text.contains("asynchronous: true");
        let second = kind == "BlockRam" && text.contains("second: Some");
        add(format!("cells {kind}"), 1);
        add("cells FlipFlop, asynchronous reset".to_owned(), asynchronous.into());
        add("cells BlockRam, second port".to_owned(), second.into());
    }
    let mut most = |what: &str, size: usize| {
        let most = tally.entry(format!("most {what}")).or_default();
        *most = (*most).max(size as u64);
    };
    let works = model.works();
    most("signal bits", model.signal_bits());
    most("expression bits", works.expression_bits);
    most("expressions", works.expressions);
    most("signals", works.signals);
    most(
        "output bytes of a case",
        model.shown(&vec![0; model.signal_bits()]).len() * case.ticks.len(),
    );
    most("words of a case", case.write().len());
}
