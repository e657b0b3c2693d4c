//! The search for the first agreeing stable model.

use super::forcing::{BothWays, Program, close, hold};
use super::maps::{IN, OUT, UNDECIDED};

/// The search gave up because it had made as many trials as it may.
#[derive(Clone, Copy, Debug, PartialEq, Eq)]
pub struct GaveUp;

/// The smallest closed map that holds the compute lists.
pub fn opened(program: &Program) -> Result<Vec<u8>, BothWays> {
    let mut map = vec![UNDECIDED; program.sheet.atoms];
    for &atom in &program.sheet.compute_in {
        hold(&mut map, (atom, IN))?;
    }
    for &atom in &program.sheet.compute_out {
        hold(&mut map, (atom, OUT))?;
    }
    close(program, &mut map)?;
    Ok(map)
}

/// The first agreeing stable model as a decided map.
pub fn first_model(program: &Program) -> Option<Vec<u8>> {
    match first_model_within(program, u64::MAX) {
        Ok(found) => found,
        Err(GaveUp) => unreachable!("no search makes so many trials"),
    }
}

/// The first agreeing stable model, if it is found or ruled out with at most
/// `trials` guesses.
pub fn first_model_within(program: &Program, trials: u64) -> Result<Option<Vec<u8>>, GaveUp> {
    match opened(program) {
        Ok(map) => Search { program, left: trials }.first_above(map),
        Err(BothWays) => Ok(None),
    }
}

struct Search<'a> {
    program: &'a Program<'a>,
    left: u64,
}

impl Search<'_> {
    /// The first decided closed map that holds a closed map: the lowest
    /// undecided atom is tried in and then, from the same map, out.
    fn first_above(&mut self, map: Vec<u8>) -> Result<Option<Vec<u8>>, GaveUp> {
        let Some(index) = map.iter().position(|&side| side == UNDECIDED) else {
            return Ok(Some(map));
        };
        for side in [IN, OUT] {
            if let Some(model) = self.trial(map.clone(), (index + 1, side))? {
                return Ok(Some(model));
            }
        }
        Ok(None)
    }

    /// The first decided closed map that holds a map and one guess.
    fn trial(&mut self, mut map: Vec<u8>, guess: (usize, u8)) -> Result<Option<Vec<u8>>, GaveUp> {
        self.left = self.left.checked_sub(1).ok_or(GaveUp)?;
        let closed = hold(&mut map, guess).and_then(|()| close(self.program, &mut map));
        match closed {
            Ok(()) => self.first_above(map),
            Err(BothWays) => Ok(None),
        }
    }
}
