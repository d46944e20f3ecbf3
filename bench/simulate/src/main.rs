//! The run of a model timed: the proved run of a whole list of ticks, from a netlist's words to what its outputs show, beside
//! Icarus Verilog and Verilator on the same netlist as Verilog and the Rust that runs a model. All must show the same.
//!
//!     bench-simulate FOLDER [SORT...]
//!     bench-simulate --profile SORT CELLS
//!
//! Prints tables in Markdown. The Verilog goes to the folder. Times are processor times, the least of several runs. With
//! `--profile` only the proved run is made, for a profiler.

mod netlists;
mod proved;
mod ticks;
mod times;
mod verilog;
mod verilog_tools;

use std::path::{Path, PathBuf};

use celox::recorder::{self, EXPRESSIONS, KINDS, Recording};
use model::Model;
use netlist::Netlist;

use proved::Lent;
use ticks::Ticks;
use verilog_tools::{Folder, Times};

const TICKS: usize = 1_000;
/// The model in Rust and the run of one tick are timed over so many ticks, and multiplied.
const FEW: usize = 50;
/// Records that the tables of the run of one tick have room for: behind them it walks the lists.
const TABLE: usize = 65_536;

const SIZES: &[usize] = &[100, 1_000, 2_000, 4_000];
/// Growth is told from here on.
const LARGE: &[usize] = &[1_000, 2_000, 4_000];

struct Sort {
    name: &'static str,
    make: fn(usize) -> Netlist,
    sizes: &'static [usize],
    verilog: bool,
}

const SORTS: &[Sort] = &[
    Sort { name: "LUT4s", make: netlists::luts, sizes: LARGE, verilog: true },
    Sort { name: "logic", make: netlists::logic, sizes: SIZES, verilog: true },
    Sort { name: "carry", make: netlists::carry, sizes: SIZES, verilog: true },
    Sort { name: "RAM", make: netlists::rams, sizes: SIZES, verilog: true },
    // one block RAM: cells are its words
    Sort { name: "deep", make: netlists::deep, sizes: &[256, 1_024], verilog: true },
    // in the worst order for the search of an order
    Sort { name: "chain", make: netlists::chain, sizes: LARGE, verilog: false },
];

/// Seconds for all ticks.
struct Row {
    sort: &'static str,
    size: usize,
    expressions: u32,
    /// Nothing but lowering, checking and preparing.
    start: f64,
    whole: f64,
    icarus: Option<Times>,
    verilator: Option<Times>,
    model: f64,
    one_tick: Option<f64>,
    /// The program `simulate`, from its input to its output.
    program: Option<f64>,
}

/// A netlist, what the Rust records of it, and the ticks.
struct Case {
    netlist: Netlist,
    words: Vec<u32>,
    recording: Recording,
    ticks: Ticks,
}

impl Case {
    fn new(sort: &Sort, size: usize) -> Self {
        let netlist = (sort.make)(size);
        let recording = lower::lower_netlist(&netlist, [usize::MAX; 3]).expect("accepted");
        Self {
            words: netlist::write(&netlist),
            netlist,
            recording,
            ticks: Ticks::draw(size as u64, TICKS),
        }
    }
}

fn measure(sort: &Sort, size: usize, folder: &Path) -> Row {
    let Case { netlist, words, recording, ticks } = Case::new(sort, size);
    let mut lent = Lent::new(&words, &ticks);

    let mut simulate = |count: usize| times::call(3, || lent.simulate(&words, &ticks, count));
    let (start, whole) = (simulate(0), simulate(TICKS));
    let shown = lent.shown(&ticks);
    let changes = shown.windows(2).filter(|pair| pair[0] != pair[1]).count();
    assert!(changes > TICKS / 2, "the outputs move");

    let (model_time, by_model) = run_model(&recording, &ticks);
    assert!(shown.starts_with(&by_model), "{} {size}: the model in Rust shows the same", sort.name);
    let one_tick = run_one_by_one(&mut lent, &recording, &ticks, &shown);
    let (mut icarus, mut verilator, mut program) = (None, None, None);
    if sort.verilog {
        let folder = Folder::new(folder.join(format!("{}-{size}", sort.name)), &netlist, &ticks);
        let (times, by_icarus) = folder.icarus(TICKS);
        assert!(shown == by_icarus, "{} {size}: Icarus Verilog shows the same", sort.name);
        icarus = Some(times);
        let (times, by_verilator) = folder.verilator(TICKS);
        assert!(shown == by_verilator, "{} {size}: Verilator shows the same", sort.name);
        verilator = Some(times);
        program = std::env::var("SIMULATE").ok().map(|path| folder.program(&path));
    }
    let expressions = recording.count[EXPRESSIONS];
    Row {
        sort: sort.name,
        size,
        expressions,
        start,
        whole,
        icarus,
        verilator,
        model: model_time,
        one_tick,
        program,
    }
}

/// The model in Rust: checked and ordered once, then the first ticks, as if there were all.
fn run_model(recording: &Recording, ticks: &Ticks) -> (f64, Vec<u32>) {
    let make = || Model::new(recording.words.each_ref().map(Vec::as_slice)).expect("well formed");
    let start = times::call(1, || drop(make()));
    let model = make();
    let mut shown = Vec::new();
    let few = times::call(1, || {
        let mut bytes = vec![0; model.signal_bits()];
        shown.clear();
        for at in 0..FEW {
            let (head, bits) = ticks.one(at);
            model
                .run(&mut bytes, model.works(), bits, Some((head[2], head[1] - 1)))
                .expect("a tick");
            shown.extend(model.shown(&bytes));
        }
    });
    (start + few * (ticks.len() / FEW) as f64, ticks.words(&shown))
}

fn run_one_by_one(
    lent: &mut Lent,
    recording: &Recording,
    ticks: &Ticks,
    shown: &[u32],
) -> Option<f64> {
    if recording.count[EXPRESSIONS] as usize > TABLE {
        return None;
    }
    let few = times::call(1, || {
        lent.clear();
        for (at, shown) in shown.iter().enumerate().take(FEW) {
            assert_eq!(lent.one_tick(ticks, at), *shown, "the run of one tick shows the same");
        }
    });
    Some(few * (ticks.len() / FEW) as f64)
}

fn milliseconds(seconds: f64) -> String {
    let time = seconds * 1e3;
    let places = if time < 10.0 { 2 } else { usize::from(time < 100.0) };
    format!("{time:.places$}")
}

fn optional(value: Option<f64>, show: impl Fn(f64) -> String) -> String {
    value.map_or_else(|| "–".to_owned(), show)
}

fn ratio(value: f64) -> String {
    let places = if value < 10.0 { 2 } else { usize::from(value < 100.0) };
    format!("{value:.places$}")
}

fn line(cells: &[String]) {
    println!("| {} |", cells.join(" | "));
}

fn heading(names: &[&str]) {
    line(&names.iter().map(|&name| name.to_owned()).collect::<Vec<_>>());
    println!("|{}", "---|".repeat(names.len()));
}

/// How much longer a run of twice the cells takes, from the next smaller size on.
fn growth(rows: &[Row], at: usize) -> Option<f64> {
    let row = &rows[at];
    let smaller = &rows[at.checked_sub(1)?];
    if smaller.sort != row.sort || smaller.size < LARGE[0] {
        return None;
    }
    let doublings = (row.size as f64 / smaller.size as f64).log2();
    Some((row.whole / smaller.whole).powf(1.0 / doublings))
}

/// The worst of each target in all rows.
fn print_targets(rows: &[Row]) {
    let say = |name: &str, values: &[f64], most: f64| {
        if let Some(worst) = values.iter().copied().reduce(f64::max) {
            let met = if worst <= most { "met" } else { "not met" };
            println!("- {name}: at worst {}, target {most}: {met}", ratio(worst));
        }
    };
    let over = |times: fn(&Row) -> Option<&Times>| -> Vec<f64> {
        rows.iter().filter_map(|row| Some(row.whole / times(row)?.whole)).collect()
    };
    let grown = (0..rows.len()).filter_map(|at| growth(rows, at)).collect::<Vec<_>>();
    let luts = rows.iter().filter(|row| row.sort == SORTS[0].name && row.size == LARGE[0]);
    let luts = luts.map(|row| row.whole).collect::<Vec<_>>();
    println!();
    say("seconds for 1,000 LUT4s", &luts, 0.2);
    say("for twice the cells", &grown, 2.2);
    say("over iverilog", &over(|row| row.icarus.as_ref()), 1.0);
    say("over Verilator", &over(|row| row.verilator.as_ref()), 5.0);
}

fn print(rows: &[Row]) {
    println!("Milliseconds of processor time for {TICKS} ticks, all runners showing the same.");
    println!(
        "'Start' is the same run without a tick; the last two columns are from {FEW} ticks.\n"
    );
    heading(&[
        "sort",
        "cells",
        "expressions",
        "proved",
        "its start",
        "Verilator",
        "iverilog",
        "its start",
        "Rust model",
        "tick by tick",
        "program",
    ]);
    for row in rows {
        let of = |times: &Option<Times>, pick: fn(&Times) -> f64| {
            optional(times.as_ref().map(pick), milliseconds)
        };
        line(&[
            row.sort.to_owned(),
            row.size.to_string(),
            row.expressions.to_string(),
            milliseconds(row.whole),
            milliseconds(row.start),
            of(&row.verilator, |times| times.whole),
            of(&row.icarus, |times| times.whole),
            of(&row.icarus, |times| times.start),
            milliseconds(row.model),
            optional(row.one_tick, milliseconds),
            optional(row.program, milliseconds),
        ]);
    }
    println!("\nRatios of the whole runs, and of the ticks alone (whole less start).\n");
    heading(&[
        "sort",
        "cells",
        "proved / Verilator",
        "ticks alone",
        "proved / iverilog",
        "ticks alone",
        "proved / Rust model",
        "proved for twice the cells",
    ]);
    for (at, row) in rows.iter().enumerate() {
        let whole = |times: &Option<Times>| {
            optional(times.as_ref().map(|times| row.whole / times.whole), ratio)
        };
        let ticks = |times: &Option<Times>| {
            optional(
                times.as_ref().map(|times| (row.whole - row.start) / (times.whole - times.start)),
                ratio,
            )
        };
        line(&[
            row.sort.to_owned(),
            row.size.to_string(),
            whole(&row.verilator),
            ticks(&row.verilator),
            whole(&row.icarus),
            ticks(&row.icarus),
            ratio(row.whole / row.model),
            optional(growth(rows, at), ratio),
        ]);
    }
    println!("\nMilliseconds of compiling the Verilog, which the proved run has no like of.\n");
    heading(&["sort", "cells", "iverilog", "Verilator and C++"]);
    for row in rows {
        if let (Some(icarus), Some(verilator)) = (&row.icarus, &row.verilator) {
            line(&[
                row.sort.to_owned(),
                row.size.to_string(),
                milliseconds(icarus.compile),
                milliseconds(verilator.compile),
            ]);
        }
    }
}

/// The proved run alone.
fn profile(sort: &str, size: usize) {
    let sort = SORTS.iter().find(|known| known.name == sort).expect("a sort");
    let case = Case::new(sort, size);
    let mut lent = Lent::new(&case.words, &case.ticks);
    let time = times::call(3, || lent.simulate(&case.words, &case.ticks, TICKS));
    println!("{} {size}: {} ms", sort.name, milliseconds(time));
    // how many expressions of each kind, of one bit and wider
    for (kind, name) in KINDS.iter().enumerate() {
        let widths = case
            .recording
            .records(EXPRESSIONS)
            .filter(|record| record[0] == kind as u32)
            .map(|record| record[1]);
        let (one, wider): (Vec<u32>, Vec<u32>) = widths.partition(|&width| width == 1);
        println!(
            "{name}: {} of one bit, {} wider ({} bits)",
            one.len(),
            wider.len(),
            wider.iter().sum::<u32>()
        );
    }
}

fn main() {
    let mut arguments = std::env::args().skip(1);
    let folder = arguments.next();
    let wanted = arguments.collect::<Vec<_>>();
    recorder::keep(usize::MAX);
    let folder = match (folder.as_deref(), &wanted[..]) {
        (Some("--profile"), [sort, size]) => {
            return profile(sort, size.parse().expect("a number of cells"));
        }
        (Some(folder), _) if !folder.starts_with('-') => PathBuf::from(folder),
        _ => {
            eprintln!("usage: bench-simulate FOLDER [SORT...] | --profile SORT CELLS");
            std::process::exit(2)
        }
    };
    let mut rows = Vec::new();
    for sort in
        SORTS.iter().filter(|sort| wanted.is_empty() || wanted.iter().any(|name| name == sort.name))
    {
        for &size in sort.sizes {
            eprintln!("{} {size}", sort.name);
            rows.push(measure(sort, size, &folder));
        }
    }
    print(&rows);
    print_targets(&rows);
}
