//! Runs a suite over its seeds.
//!
//! By default a suite runs a fixed number of seeds, so that every run makes
//! the same calls. `OUTSIDE_SECONDS=n` lets each suite go on with further
//! seeds until it has run for n seconds. `OUTSIDE_SEED=n` runs one seed.
//! `OUTSIDE_TRACE=1` prints each seed before it is run, which finds the seed
//! that ends the whole process.

use super::{Disagreement, Suite};
use crate::desk::Desk;
use std::env;
use std::time::{Duration, Instant};

/// Holds a desk against a suite as the environment asks, and says how many
/// seeds it agreed on.
pub fn hold(desk: &Desk, suite: &Suite) -> Result<u64, Disagreement> {
    if let Some(seed) = asked("OUTSIDE_SEED") {
        return hold_seeds(desk, suite, seed..seed + 1);
    }
    let start = Instant::now();
    let mut done = hold_seeds(desk, suite, 0..suite.seeds)?;
    if let Some(seconds) = asked("OUTSIDE_SECONDS") {
        while start.elapsed() < Duration::from_secs(seconds) && !suite.is_complete {
            done += hold_seeds(desk, suite, done..done + 1)?;
        }
    }
    Ok(done)
}

/// Holds a desk against some seeds of a suite; the first disagreement is
/// handed back with the suite and the seed before it.
pub fn hold_seeds(desk: &Desk, suite: &Suite, seeds: std::ops::Range<u64>) -> Result<u64, Disagreement> {
    let count = seeds.end - seeds.start;
    let trace = asked("OUTSIDE_TRACE").is_some();
    for seed in seeds {
        if trace {
            eprintln!("suite {}, seed {seed}", suite.name);
        }
        (suite.run)(desk, seed).map_err(|found| Disagreement {
            what: format!("suite {}, seed {seed} (OUTSIDE_SEED={seed} runs it alone)\n{found}", suite.name),
        })?;
    }
    Ok(count)
}

fn asked(name: &str) -> Option<u64> {
    let text = env::var(name).ok()?;
    Some(text.parse().unwrap_or_else(|_| panic!("{name} must be a whole number, not {text:?}")))
}
