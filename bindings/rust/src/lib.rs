//! The proved lowering of ECP5 netlists and the proved run of their models, as safe Rust.
//!
//! A netlist is words (tools/words.py makes them from text). [`lower`] makes its
//! [`Model`], [`Model::run`] makes one tick, [`simulate`] lowers and makes a whole
//! list of ticks. [`calls`] has the same functions with buffers of the caller's.
//!
//! ```
//! // Two input bits, one output bit, a LUT4 between them: and.
//! let words = [0, 2, 2, 3, 1, 1, 4, 0, 2, 3, 0, 0, 2, 8, 0, 2, 7, 1];
//! let model = reamerpoppy::lower(&words)?;
//! assert_eq!((model.signals.count(), model.exprs.count(), model.stmts.count()), (5, 6, 4));
//!
//! let mut state = model.start();
//! model.run(&mut state, &[1, 1], reamerpoppy::Fired::Nothing)?;
//! assert_eq!(model.outputs(&state), [1]);
//! # Ok::<(), reamerpoppy::Refusal>(())
//! ```

pub mod calls;
mod lowering;
mod model;
mod refusal;
mod simulation;

pub use lowering::{LONGEST, lower, lower_within};
pub use model::{Fired, List, Model, State};
pub use refusal::Refusal;
pub use simulation::{Buffers, Shown, Tick, simulate};
