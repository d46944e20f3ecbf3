//! Stand-in for Celox. The builder records what it is told and refuses
//! nothing; the simulator is there only so that the lowering compiles.

pub mod frontend_sdk;
pub mod recorder;

use std::marker::PhantomData;

pub use frontend_sdk::FrontendArtifact;

pub struct Simulator;

pub struct SimulatorBuilder<'a, T> {
    simulator: PhantomData<&'a T>,
}

#[derive(Clone, Copy, Debug, PartialEq, Eq)]
pub enum SirPass {
    BranchifyMux,
}

impl Simulator {
    #[must_use]
    pub fn from_frontend(_artifact: FrontendArtifact) -> SimulatorBuilder<'static, Simulator> {
        SimulatorBuilder { simulator: PhantomData }
    }
}

impl<T> SimulatorBuilder<'_, T> {
    #[must_use]
    pub fn disable_pass(self, _pass: SirPass) -> Self {
        self
    }
}
