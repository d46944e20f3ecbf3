//! The proved run, through the safe Rust of the static library.

use reamerpoppy::{Buffers, Fired, Model, State};

use crate::ticks::Ticks;

/// The model, and all that its runs are lent.
pub struct Lent {
    model: Model,
    buffers: Buffers,
    state: State,
}

impl Lent {
    pub fn new(words: &[u32], ticks: &Ticks) -> Self {
        let model = reamerpoppy::lower(words).expect("accepted");
        let buffers = Buffers::new(&model, ticks.len());
        let state = model.start();
        Self { model, buffers, state }
    }

    /// Lowers the netlist and runs the first ticks.
    pub fn simulate(&mut self, words: &[u32], ticks: &Ticks, count: usize) {
        let (heads, bits) = ticks.first(count);
        self.buffers.simulate(words, heads, bits).expect("accepted");
    }

    /// What the output port showed after each tick. None was refused.
    pub fn shown(&self, ticks: &Ticks) -> Vec<u32> {
        assert!(self.buffers.answers.iter().all(|&number| number == 0), "no tick is refused");
        ticks.words(&self.buffers.shown)
    }

    /// One tick of the model, checked and prepared for this tick alone, and what the output port shows then.
    pub fn one_tick(&mut self, ticks: &Ticks, at: usize) -> u32 {
        let (head, bits) = ticks.one(at);
        let fired = Fired::Edge(head[2], head[1] - 1);
        self.model.run(&mut self.state, bits, fired).expect("a tick");
        ticks.words(&self.model.outputs(&self.state))[0]
    }

    pub fn clear(&mut self) {
        self.state.bytes.fill(0);
    }
}
