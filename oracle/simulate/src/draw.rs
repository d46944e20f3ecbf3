//! Random cases.

use cells::Circuit;
use compare::draw;
use generate::{Faults, Focus, Plan, Rng};
use model::Model;
use netlist::Limits;

use crate::{Case, LISTS, Tick};

impl Case {
    /// The case of a seed and index. Most netlists are meant to be run; some have
    /// faults, and some close loops.
    #[must_use]
    pub fn draw(seed: u64, index: u64, ticks: usize) -> Self {
        Self::draw_for(Focus::All, seed, index, ticks)
    }

    #[must_use]
    pub fn draw_for(focus: Focus, seed: u64, index: u64, ticks: usize) -> Self {
        let netlist = netlist_of(focus, seed, index);
        Self { ticks: ticks_for(seed, index, &netlist, ticks), netlist }
    }
}

fn netlist_of(focus: Focus, seed: u64, index: u64) -> Vec<u32> {
    match index % 20 {
        16..=18 => focus.sample(seed, index),
        19 => {
            let mut rng = Rng::new(seed, index);
            let plan = Plan::draw(&mut rng, Faults { any_rank: 4, ..Faults::default() });
            netlist::write(&focus.netlist(&mut rng, plan))
        }
        _ => netlist::write(&focus.runnable(seed, index)),
    }
}

/// Ticks that suit the netlist, those that cannot be made among them. A netlist
/// that lowering refuses gets a few of any kind.
fn ticks_for(seed: u64, index: u64, words: &[u32], ticks: usize) -> Vec<Tick> {
    let mut rng = Rng::new(!seed, index);
    let accepted = lower::lower(words, &Limits::BASE, LISTS).ok().map(|recording| {
        let lists = recording.words.each_ref().map(Vec::as_slice);
        let model = Model::new(lists).expect("a model of the Rust is well formed");
        let netlist = netlist::read(words, &Limits::BASE).expect("lowering accepts it");
        let clocks = Circuit::new(&netlist).clocks();
        (model.input_bits(), clocks, model.signal_count(), model.on_loop().is_some())
    });
    let (inputs, clocks, signals, refused) =
        accepted.unwrap_or_else(|| (rng.below(9), Vec::new(), 4, true));
    let ticks = match rng.below(40) {
        0 => rng.below(2),
        _ if refused => rng.below(4),
        _ => ticks,
    };
    let mut bits = vec![0; inputs];
    let drawn = (0..ticks).map(|_| {
        let tick = draw(&mut rng, &mut bits, &clocks, signals);
        let (fires, signal) = tick.fired.map_or((0, 0), |(signal, edge)| (edge + 1, signal));
        let mut tick = Tick { asked: 0, bits: tick.bits, fires, signal };
        // Now and then the largest values; a signal counts only where one fires.
        match rng.below(400) {
            0 => tick.fires = u32::MAX,
            1 => tick.signal = u32::MAX,
            2 => tick.bits.iter_mut().for_each(|bit| *bit = 255),
            3 => tick.bits.clear(),
            _ => {}
        }
        tick.asked = tick.bits.len() as u32;
        tick
    });
    let mut drawn = drawn.collect::<Vec<_>>();
    // Now and then the last one asks for more bits than there are.
    if let Some(last) = drawn.last_mut() {
        match rng.below(20) {
            0 => last.asked += 1 + rng.below(3) as u32,
            1 => last.asked = u32::MAX,
            _ => {}
        }
    }
    drawn
}
