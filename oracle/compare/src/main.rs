//! Compares the two simulators on random netlists.
//!
//!     compare [--clock-enables | --repeats] SEED NETLISTS TICKS
//!     compare [--clock-enables | --repeats] SEED NETLISTS TICKS --wrong
//!
//! The second form tries each wrong reading of `wrong.rs` and says how soon it
//! is found.

use compare::wrong::{READINGS, spoiled};
use compare::{Outcome, Tally, compare, shrink};
use generate::{Focus, Rng};
use netlist::Netlist;

fn main() {
    let mut arguments = std::env::args().skip(1).collect::<Vec<_>>();
    let focus = Focus::option(&mut arguments);
    let number = |at: usize| arguments.get(at).and_then(|text| text.parse::<u64>().ok());
    let (Some(seed), Some(netlists), Some(ticks)) = (number(0), number(1), number(2)) else {
        eprintln!("usage: compare [--clock-enables | --repeats] SEED NETLISTS TICKS [--wrong]");
        std::process::exit(2)
    };
    let ticks = ticks as usize;
    if arguments.get(3).is_some_and(|option| option == "--wrong") {
        let found = READINGS.iter().filter(|(name, reading)| {
            let (found, tally) =
                search(focus, seed, netlists, ticks, &|netlist| spoiled(netlist, *reading));
            match found {
                Some(index) => println!("{name}: netlist {index}, {} ticks", tally.ticks),
                None => println!("{name}: NOT FOUND in {} ticks", tally.ticks),
            }
            found.is_some()
        });
        let found = found.count();
        std::process::exit(i32::from(found != READINGS.len()))
    }
    let (found, tally) = search(focus, seed, netlists, ticks, &Netlist::clone);
    println!("{tally:#?}");
    if let Some(index) = found {
        let netlist = focus.runnable(seed, index);
        report(seed, index, &netlist, ticks);
        std::process::exit(1)
    }
}

/// The first netlist that differs.
fn search(
    focus: Focus,
    seed: u64,
    netlists: u64,
    ticks: usize,
    spoil: &dyn Fn(&Netlist) -> Netlist,
) -> (Option<u64>, Tally) {
    let mut tally = Tally::default();
    for index in 0..netlists {
        let netlist = focus.runnable(seed, index);
        let mut rng = Rng::new(!seed, index);
        let outcome = compare(&netlist, &spoil(&netlist), &mut rng, ticks, &mut tally);
        if let Outcome::Different(_) = outcome {
            return (Some(index), tally);
        }
    }
    (None, tally)
}

fn report(seed: u64, index: u64, netlist: &Netlist, ticks: usize) {
    let run = |left: &Netlist, right: &Netlist| {
        compare(left, right, &mut Rng::new(!seed, index), 10 * ticks, &mut Tally::default())
    };
    let differs =
        |left: &Netlist, right: &Netlist| matches!(run(left, right), Outcome::Different(_));
    let smallest = shrink(netlist, &Netlist::clone, &differs);
    println!("netlist {index} of seed {seed} differs; made smaller:");
    println!("{smallest:#?}");
    println!("{:?}", netlist::write(&smallest));
    println!("{:?}", run(&smallest, &smallest));
}
