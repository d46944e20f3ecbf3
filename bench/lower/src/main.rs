//! The time of one call of the proved lowering, from words to lists, beside the Rust's on the same netlist.
//!
//! The Rust is timed twice: from words to a judged model (its own reader, the
//! stand-ins' types, lowering, refusals 2 and 11), and lowering alone on a
//! netlist that stands ready in its own types. The proved lowering is lent
//! lists of just the words used, since it clears all that it is lent; its five
//! works are cleared by each call too. All three answers must be equal.

use std::hint::black_box;

use celox::recorder::{self, Recording};
use lower::{lower_netlist, mapped_netlist};
use netlist::{Bit, BlockRam, Cell, Control, Direction, Edge, Limits, Netlist, Port};
use reamerpoppy::calls::{self, ANSWER, WORK};

/// The refusal's number, 0 when accepted.
fn proved(words: &[u32], lists: &mut [Vec<u32>; 3], works: &mut [Vec<u32>; 5]) -> usize {
    let lists = lists.each_mut().map(Vec::as_mut_slice);
    let works = works.each_mut().map(Vec::as_mut_slice);
    calls::lower(words, lists, works, &mut [0; ANSWER])
}

fn by_rust(words: &[u32]) -> Recording {
    let netlist = netlist::read_words(words, &Limits::BASE).expect("a netlist");
    lower_netlist(&netlist, [usize::MAX; 3]).expect("accepted")
}

#[repr(C)]
struct Timespec {
    seconds: i64,
    nanoseconds: i64,
}

unsafe extern "C" {
    fn clock_gettime(clock: i32, time: *mut Timespec) -> i32;
}

/// Seconds of processor time that this thread has had: what other processes take does not count.
fn processor_time() -> f64 {
    const THREAD_CPUTIME: i32 = 3;
    let mut now = Timespec { seconds: 0, nanoseconds: 0 };
    assert_eq!(unsafe { clock_gettime(THREAD_CPUTIME, &mut now) }, 0);
    now.seconds as f64 + now.nanoseconds as f64 * 1e-9
}

/// Microseconds of processor time of a call: the least mean of 25 rounds of at least 40 ms.
fn time(mut call: impl FnMut()) -> f64 {
    call();
    let start = processor_time();
    call();
    let once = (processor_time() - start).max(1e-7);
    let calls = (0.04 / once).ceil() as u32;
    (0..25)
        .map(|_| {
            let start = processor_time();
            for _ in 0..calls {
                call();
            }
            (processor_time() - start) / f64::from(calls) * 1e6
        })
        .fold(f64::INFINITY, f64::min)
}

struct Times {
    proved: f64,
    rust: f64,
    alone: f64,
}

fn measure(netlist: &Netlist) -> (Recording, Times) {
    let words = netlist::write(netlist);
    let recording = by_rust(&words);
    let mut lists = recording.words.each_ref().map(|words| vec![1; words.len()]);
    let mut works: [Vec<u32>; 5] = std::array::from_fn(|_| vec![1; WORK]);
    assert_eq!(proved(&words, &mut lists, &mut works), 0, "accepted");
    assert!(lists == recording.words, "the same records");
    let mapped = mapped_netlist(netlist);
    let times = Times {
        proved: time(|| {
            black_box(proved(&words, &mut lists, &mut works));
        }),
        rust: time(|| {
            black_box(by_rust(&words));
        }),
        alone: time(|| {
            black_box(struo_celox::ecp5_frontend_artifact(&mapped).is_ok());
            black_box(recorder::take());
        }),
    };
    (recording, times)
}

struct Rng(u64);

impl Rng {
    fn below(&mut self, n: usize) -> usize {
        self.0 = self.0.wrapping_mul(6_364_136_223_846_793_005).wrapping_add(1);
        (self.0 >> 33) as usize % n
    }
}

/// Two LUT4s, a CCU2C of a carry chain and a flip-flop in every four cells, over earlier wires.
fn logic(cells: usize) -> Netlist {
    let mut rng = Rng(cells as u64);
    let clock = 0;
    let mut wires: Vec<u32> = (1..33).collect();
    let ports = vec![
        Port { direction: Direction::Input, bits: vec![Bit::Wire(clock)] },
        Port { direction: Direction::Input, bits: wires.iter().map(|&w| Bit::Wire(w)).collect() },
    ];
    let mut next = 33;
    let mut carry = Bit::Zero;
    let mut netlist = Netlist { ports, cells: Vec::new() };
    for index in 0..cells {
        let mut pick = || Bit::Wire(wires[wires.len() - 1 - rng.below(wires.len().min(200))]);
        let (cell, made) = match index % 4 {
            0 | 1 => {
                let inputs = [pick(), pick(), pick(), pick()];
                (Cell::Lut4 { inputs, output: next, init: (rng.below(65_536)) as u16 }, 1)
            }
            2 => {
                let mut row = || [pick(), pick(), Bit::One, Bit::One];
                let cell = Cell::Ccu2c {
                    inputs: [row(), row()],
                    carry_in: carry,
                    sums: [next, next + 1],
                    carry_out: next + 2,
                    init: [0x96aa; 2],
                    inject: [false; 2],
                };
                carry = Bit::Wire(next + 2);
                (cell, 3)
            }
            _ => {
                let cell = Cell::FlipFlop {
                    data: pick(),
                    output: next,
                    clock: Bit::Wire(clock),
                    edge: Edge::Rising,
                    enable: None,
                    reset: None,
                };
                (cell, 1)
            }
        };
        netlist.cells.push(cell);
        wires.extend(next..next + made);
        next += made;
    }
    let shown = wires[wires.len() - 32..].iter().map(|&wire| Bit::Wire(wire)).collect();
    netlist.ports.push(Port { direction: Direction::Output, bits: shown });
    netlist
}

/// Block RAMs of this depth, four bits wide, on one port, which share their inputs.
fn rams(count: u32, depth: u32) -> Netlist {
    const READ: u32 = 40;
    let bit = |wire| Bit::Wire(wire);
    let mut ports = vec![
        Port { direction: Direction::Input, bits: (0..34).map(bit).collect() },
        Port { direction: Direction::Input, bits: vec![bit(34)] },
    ];
    let reads = |at: u32| READ + 4 * at..READ + 4 * at + 4;
    let cells = (0..count)
        .map(|at| {
            ports.push(Port { direction: Direction::Output, bits: reads(at).map(bit).collect() });
            Cell::BlockRam(Box::new(BlockRam {
                depth,
                word_width: 4,
                physical_width: 1,
                write_address: std::array::from_fn(|i| bit(i as u32)),
                write: Control { signal: bit(28), active_high: true },
                read_address: std::array::from_fn(|i| bit(14 + i as u32)),
                read_enable: None,
                clock_enable: None,
                clock: bit(34),
                edge: Edge::Rising,
                data: (29..33).map(bit).collect(),
                read: reads(at).collect(),
                second: None,
            }))
        })
        .collect();
    Netlist { ports, cells }
}

fn table(name: &str, sizes: &[u32], make: impl Fn(u32) -> Netlist) {
    println!("{name:>10} {:>9} {:>11} {:>11} {:>11} {:>7} {:>7} {:>9}", "words", "proved us", "Rust us", "alone us", "/Rust", "/alone", "per twice");
    let mut before: Option<(u32, f64)> = None;
    for &size in sizes {
        let (recording, times) = measure(&make(size));
        let words: usize = recording.words.iter().map(Vec::len).sum();
        // growth for twice the size, from the step before
        let growth = before.map_or(String::new(), |(small, time)| {
            let doublings = (f64::from(size) / f64::from(small)).log2();
            format!("{:.2}", (times.proved / time).powf(1.0 / doublings))
        });
        let Times { proved, rust, alone } = times;
        println!(
            "{size:>10} {words:>9} {proved:>11.1} {rust:>11.1} {alone:>11.1} {:>7.2} {:>7.2} {growth:>9}",
            proved / rust,
            proved / alone
        );
        before = Some((size, proved));
    }
}

fn main() {
    recorder::keep(usize::MAX);
    table("cells", &[100, 500, 1_000, 2_000, 4_000], |cells| logic(cells as usize));
    println!();
    table("RAM depth", &[16, 64, 128, 256, 512, 1_024, 2_048, 4_096, 8_192, 16_384], |depth| rams(1, depth));
    println!();
    table("RAMs of 16", &[25, 50, 100, 200], |count| rams(count, 16));
}
