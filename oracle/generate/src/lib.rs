//! Random netlists. Most are acceptable; faults are drawn in on purpose, one
//! kind at a time or all together, so that every refusal turns up.

mod build;
mod rng;
mod spoil;
mod tie;

pub use build::{Plan, netlist};
pub use rng::Rng;
pub use spoil::spoil;
pub use tie::untie;

/// Chances, in a hundred and per occasion, of the things that can go wrong.
#[derive(Clone, Copy, Debug, Default, PartialEq, Eq)]
pub struct Faults {
    /// An input bit names a wire that nothing drives.
    pub missing: usize,
    /// A clock enable does.
    pub missing_enable: usize,
    /// An output takes a wire that is driven already.
    pub duplicate: usize,
    /// A control takes any wire, vector bits included.
    pub non_scalar: usize,
    /// A distributed RAM has its second port flagged.
    pub flagged: usize,
    /// A block RAM's second port has another clock or edge.
    pub clocking: usize,
    /// A PLL wire is shared with whatever there is.
    pub pll: usize,
    /// A combinational input takes any wire, so that loops can close.
    pub any_rank: usize,
    /// The words are changed afterwards.
    pub words: usize,
}

/// What netlists are drawn for.
#[derive(Clone, Copy, Debug, Default, PartialEq, Eq)]
pub enum Focus {
    #[default]
    All,
    /// Each has a block RAM with a clock enable in both ports.
    ClockEnables,
    /// Each has a cell that reads a wire twice, and most have many.
    Repeats,
}

impl Focus {
    /// Takes the options `--clock-enables` and `--repeats` out of a program's arguments.
    pub fn option(arguments: &mut Vec<String>) -> Self {
        let mut focus = Self::All;
        arguments.retain(|argument| {
            focus = match argument.as_str() {
                "--clock-enables" => Self::ClockEnables,
                "--repeats" => Self::Repeats,
                _ => return true,
            };
            false
        });
        focus
    }

    /// The netlist of a seed and index, in words.
    #[must_use]
    pub fn sample(self, seed: u64, index: u64) -> Vec<u32> {
        let mut rng = Rng::new(seed, index);
        let faults = draw_faults(&mut rng);
        let mut plan = Plan::draw(&mut rng, faults);
        if rng.below(200) == 0 {
            plan.very_deep = 30;
        }
        let mut words = netlist::write(&self.netlist(&mut rng, plan));
        if rng.chance(faults.words) {
            spoil(&mut rng, &mut words);
        }
        words
    }

    /// A netlist meant to be run: no faults on purpose, loops only now and then.
    #[must_use]
    pub fn runnable(self, seed: u64, index: u64) -> netlist::Netlist {
        let mut rng = Rng::new(seed, index);
        let mut faults = Faults::default();
        if rng.chance(3) {
            faults.any_rank = 4;
        }
        if rng.chance(10) {
            // Registers as controls: they are scalar only in a bank of one.
            faults.non_scalar = 10;
        }
        let plan = Plan::draw(&mut rng, faults);
        self.netlist(&mut rng, plan)
    }

    #[must_use]
    pub fn netlist(self, rng: &mut Rng, mut plan: Plan) -> netlist::Netlist {
        let wanted: fn(&netlist::Netlist) -> bool = match self {
            Self::All => {
                // Drawn aside, so that the other netlists are what they were before.
                let way = Rng::new(rng.clone().next(), 0).below(16);
                plan.ties = if way == 0 { 50 } else { 0 };
                let mut netlist = netlist(rng, &plan);
                if (1..=4).contains(&way) {
                    untie(&mut netlist);
                }
                return netlist;
            }
            Self::ClockEnables => {
                plan.favour_clock_enables();
                netlist::Netlist::has_two_clock_enables
            }
            Self::Repeats => {
                plan.favour_ties();
                netlist::Netlist::has_repeat
            }
        };
        loop {
            let netlist = netlist(rng, &plan);
            if wanted(&netlist) {
                return netlist;
            }
        }
    }
}

/// The netlist of a seed and index, in words.
#[must_use]
pub fn sample(seed: u64, index: u64) -> Vec<u32> {
    Focus::All.sample(seed, index)
}

/// A netlist meant to be run.
#[must_use]
pub fn runnable(seed: u64, index: u64) -> netlist::Netlist {
    Focus::All.runnable(seed, index)
}

fn draw_faults(rng: &mut Rng) -> Faults {
    let none = Faults::default();
    match rng.below(100) {
        0..50 => none,
        50..57 => Faults { missing: 2, missing_enable: 25, ..none },
        57..64 => Faults { duplicate: 4, ..none },
        64..71 => Faults { non_scalar: 25, missing_enable: 5, ..none },
        71..74 => Faults { flagged: 60, ..none },
        74..77 => Faults { clocking: 60, ..none },
        77..84 => Faults { pll: 40, ..none },
        84..86 => Faults { any_rank: 30, ..none },
        86..95 => Faults { words: 100, ..none },
        _ => Faults {
            missing: 1,
            missing_enable: 5,
            duplicate: 2,
            non_scalar: 10,
            flagged: 20,
            clocking: 20,
            pll: 10,
            any_rank: 10,
            words: 10,
        },
    }
}
