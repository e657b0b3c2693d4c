//! What a desk must agree on with the plain solver and with the paper's
//! definitions. Each suite is a function of a desk and a seed; the same seed
//! always makes the same calls.

pub mod compare;
pub mod runner;
pub mod suites;

pub use compare::Disagreement;
pub use runner::{hold, hold_seeds};
pub use suites::{SUITES, Suite};
