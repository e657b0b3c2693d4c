//! The suites.

mod calls;
mod definitions;
mod limits;
mod orders;
mod parts;
mod repeats;

use super::compare::Disagreement;
use crate::desk::Desk;
use calls::{any_bytes, bounds, damaged, large, long_numbers, one_byte, short_strings, well_formed};
use definitions::{closed_maps, subsets};
use limits::{LIMITS, limits};
use orders::{pin_walks, shuffled};
use repeats::repeats;

/// A way to hold a desk against plain or against the definitions.
#[derive(Clone, Copy)]
pub struct Suite {
    pub name: &'static str,
    /// How many seeds a run takes by default.
    pub seeds: u64,
    /// Whether the default seeds are all there are.
    pub is_complete: bool,
    pub run: fn(&Desk, u64) -> Outcome,
}

/// Nothing to say, or a disagreement.
pub type Outcome = Result<(), Disagreement>;

/// All suites.
pub const SUITES: [Suite; 14] = [
    Suite { name: "short strings", seeds: 256, is_complete: true, run: short_strings },
    Suite { name: "any bytes", seeds: 60_000, is_complete: false, run: any_bytes },
    Suite { name: "well formed", seeds: 30_000, is_complete: false, run: well_formed },
    Suite { name: "damaged", seeds: 40_000, is_complete: false, run: damaged },
    Suite { name: "long numbers", seeds: 200, is_complete: false, run: long_numbers },
    Suite { name: "one byte", seeds: 200, is_complete: false, run: one_byte },
    Suite { name: "bounds", seeds: 1_000, is_complete: false, run: bounds },
    Suite { name: "large", seeds: 120, is_complete: false, run: large },
    Suite { name: "limits", seeds: LIMITS.len() as u64, is_complete: true, run: limits },
    Suite { name: "subsets", seeds: 5_000, is_complete: false, run: subsets },
    Suite { name: "closed maps", seeds: 5_000, is_complete: false, run: closed_maps },
    Suite { name: "shuffled", seeds: 12_000, is_complete: false, run: shuffled },
    Suite { name: "pin walks", seeds: 12_000, is_complete: false, run: pin_walks },
    Suite { name: "repeats", seeds: 6_000, is_complete: false, run: repeats },
];
