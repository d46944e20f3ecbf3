//! Runs a netlist on its cells and as the model that the Rust makes of it, and
//! compares what the output ports show after every tick.

mod shrink;
pub mod wrong;

use cells::Circuit;
use generate::Rng;
use model::{Model, Works};
use netlist::Netlist;
pub use shrink::shrink;

/// Lists long enough for all that is generated.
pub const ROOMY: [usize; 3] = [1 << 22; 3];

/// One call of the run. Works that are one short stand for a refusal with 1.
#[derive(Clone, Debug)]
pub struct Tick {
    pub bits: Vec<u8>,
    pub fired: Option<(u32, u32)>,
    pub short_works: bool,
}

/// What is counted over many runs.
#[derive(Clone, Copy, Debug, Default)]
pub struct Tally {
    /// Netlists run.
    pub run: u64,
    /// Of those run, with a clock enable, and with one in both ports of a RAM.
    pub clock_enable: u64,
    pub two_clock_enables: u64,
    /// Of those run, with a cell that reads a wire twice.
    pub repeat: u64,
    /// Refused by lowering, with a loop of cells, and those of the latter whose
    /// model has a loop too.
    pub refused: u64,
    pub loops: u64,
    pub model_loops: u64,
    pub ticks: u64,
    pub not_made: u64,
    /// Output bits compared, and those that differ from the tick before.
    pub bits: u64,
    pub changes: u64,
}

#[derive(Debug)]
pub enum Outcome {
    /// Lowering refuses, or the cells form a loop: nothing to compare.
    Skipped,
    Same,
    Different(String),
}

/// Compares over `ticks` random ticks. `cells_netlist` is what the cells side
/// runs, the same netlist unless something wrong is tried on purpose.
pub fn compare(
    netlist: &Netlist,
    cells_netlist: &Netlist,
    rng: &mut Rng,
    ticks: usize,
    tally: &mut Tally,
) -> Outcome {
    let Ok(recording) = lower::lower_netlist(netlist, ROOMY) else {
        tally.refused += 1;
        return Outcome::Skipped;
    };
    let lists = recording.words.each_ref().map(Vec::as_slice);
    let model = match Model::new(lists) {
        Ok(model) => model,
        Err(refusal) => return Outcome::Different(format!("the model is refused: {refusal:?}")),
    };
    let mut circuit = Circuit::new(cells_netlist);
    if circuit.has_loop() {
        tally.loops += 1;
        tally.model_loops += u64::from(model.on_loop().is_some());
        return Outcome::Skipped;
    }
    if let Some(signal) = model.on_loop() {
        return Outcome::Different(format!("only the model has a loop: s{signal}"));
    }
    if (circuit.input_bits(), circuit.signal_count() as usize)
        != (model.input_bits(), model.signal_count())
    {
        return Outcome::Different("input bits or signal counts differ".to_owned());
    }
    tally.run += 1;
    tally.clock_enable += u64::from(netlist.has_clock_enable());
    tally.two_clock_enables += u64::from(netlist.has_two_clock_enables());
    tally.repeat += u64::from(netlist.has_repeat());
    let mut bytes = vec![0; model.signal_bits()];
    let mut before = model.shown(&bytes);
    if before != circuit.shown() {
        return Outcome::Different("they differ before the first tick".to_owned());
    }
    let clocks = circuit.clocks();
    let mut bits = vec![0; model.input_bits()];
    for number in 0..ticks {
        let tick = draw(rng, &mut bits, &clocks, model.signal_count());
        let old = bytes.clone();
        let made = run_model(&model, &mut bytes, &tick);
        let allowed = !tick.short_works && circuit.tick(&tick.bits, tick.fired);
        match made {
            Ok(()) if allowed => {}
            Err(1 | 14) if !allowed && bytes == old => tally.not_made += 1,
            _ => return Outcome::Different(format!("tick {number}: {made:?} for {tick:?}")),
        }
        let (by_model, by_cells) = (model.shown(&bytes), circuit.shown());
        tally.ticks += 1;
        tally.bits += by_model.len() as u64;
        tally.changes +=
            by_model.iter().zip(&before).filter(|(new, old)| new != old).count() as u64;
        if by_model != by_cells {
            return Outcome::Different(format!(
                "tick {number} {tick:?}: the model shows {by_model:?}, the cells {by_cells:?}"
            ));
        }
        before = by_model;
    }
    Outcome::Same
}

fn run_model(model: &Model, bytes: &mut [u8], tick: &Tick) -> Result<(), u32> {
    let mut works = model.works();
    if tick.short_works {
        works = Works { expressions: works.expressions - 1, ..works };
    }
    let outcome = model.run(bytes, works, &tick.bits, tick.fired);
    outcome.map_err(|refusal| refusal.number)
}

/// The next tick. Inputs move a few at a time or all at once, and what fires is
/// mostly a clock that some register has.
pub fn draw(rng: &mut Rng, bits: &mut [u8], clocks: &[u32], signals: usize) -> Tick {
    let moving = rng.pick(&[10, 50]);
    for bit in bits.iter_mut() {
        if rng.chance(moving) {
            *bit ^= 1;
        }
    }
    let edge = u32::from(rng.chance(40));
    let mut tick = Tick { bits: bits.to_vec(), fired: None, short_works: false };
    tick.fired = match rng.below(20) {
        0 | 1 => None,
        2 | 3 => Some((rng.below(signals) as u32, edge)),
        _ if clocks.is_empty() => None,
        _ => Some((rng.pick(clocks), edge)),
    };
    // Now and then a tick that cannot be made.
    match rng.below(150) {
        0 => tick.bits.push(0),
        1 if !bits.is_empty() => {
            let at = rng.below(bits.len());
            tick.bits[at] = 2;
        }
        2 => tick.fired = Some((signals as u32 + rng.below(2) as u32, edge)),
        3 => tick.fired = Some((rng.below(signals) as u32, 2)),
        4 => tick.short_works = true,
        5 if !bits.is_empty() => {
            tick.bits.pop();
        }
        _ => {}
    }
    tick
}
