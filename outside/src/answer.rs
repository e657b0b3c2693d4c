//! What a call answers, and the one number that says it.

use std::fmt;

/// A refusal: its number in the paper's table, and a place.
#[derive(Clone, Copy, Debug, PartialEq, Eq)]
pub struct Refusal {
    pub number: u8,
    pub place: usize,
}

/// The numbers of the refusals that a sheet's own bytes can have.
pub const SHEET_REFUSALS: [u8; 11] = [1, 2, 3, 4, 5, 6, 7, 8, 9, 15, 16];
/// The refusals are numbered from 1 to this.
pub const HIGHEST_REFUSAL: u8 = 16;

/// Every answer of every call.
#[derive(Clone, Copy, Debug, PartialEq, Eq)]
pub enum Answer {
    Refused(Refusal),
    Accepted { atoms: usize, rules: usize },
    Closed { undecided: usize },
    Contradiction,
    Model,
    NoModel,
    Yes,
    No,
    Margin(i64),
    Part(u64),
    NothingThere,
}

impl Answer {
    /// The answer as one number: top * 2^40 + value. A refusal's top is its
    /// number; the other tops run from 32 to 41 in the order of the cases.
    pub fn code(self) -> u64 {
        let (top, value) = match self {
            Answer::Refused(refusal) => (u64::from(refusal.number), refusal.place as u64),
            Answer::Accepted { atoms, rules } => (32, (atoms as u64) << 16 | rules as u64),
            Answer::Closed { undecided } => (33, undecided as u64),
            Answer::Contradiction => (34, 0),
            Answer::Model => (35, 0),
            Answer::NoModel => (36, 0),
            Answer::Yes => (37, 0),
            Answer::No => (38, 0),
            Answer::Margin(margin) => (39, (margin + (1 << 32)) as u64),
            Answer::Part(value) => (40, value),
            Answer::NothingThere => (41, 0),
        };
        top << 40 | value
    }

    /// The answer with this code, if a call can answer so.
    pub fn of_code(code: u64) -> Option<Answer> {
        let value = code % (1 << 40);
        let answer = match code >> 40 {
            number if (1..=u64::from(HIGHEST_REFUSAL)).contains(&number) => {
                Answer::Refused(Refusal { number: number as u8, place: value as usize })
            }
            32 => Answer::Accepted { atoms: (value >> 16) as usize, rules: (value % (1 << 16)) as usize },
            33 => Answer::Closed { undecided: value as usize },
            34 => Answer::Contradiction,
            35 => Answer::Model,
            36 => Answer::NoModel,
            37 => Answer::Yes,
            38 => Answer::No,
            39 => Answer::Margin(value as i64 - (1 << 32)),
            40 => Answer::Part(value),
            41 => Answer::NothingThere,
            _ => return None,
        };
        (answer.code() == code).then_some(answer)
    }
}

/// A coded answer in words, for messages.
pub fn in_words(code: u64) -> String {
    match Answer::of_code(code) {
        Some(answer) => format!("{answer} ({code:#x})"),
        None => format!("no answer at all ({code:#x})"),
    }
}

impl fmt::Display for Answer {
    fn fmt(&self, to: &mut fmt::Formatter<'_>) -> fmt::Result {
        match self {
            Answer::Refused(Refusal { number, place }) => write!(to, "refused by {number} at {place}"),
            Answer::Accepted { atoms, rules } => write!(to, "accepted, {atoms} atoms, {rules} rules"),
            Answer::Closed { undecided } => write!(to, "closed, {undecided} undecided"),
            Answer::Contradiction => write!(to, "contradiction"),
            Answer::Model => write!(to, "model"),
            Answer::NoModel => write!(to, "none"),
            Answer::Yes => write!(to, "yes"),
            Answer::No => write!(to, "no"),
            Answer::Margin(margin) => write!(to, "margin {margin}"),
            Answer::Part(value) => write!(to, "part {value}"),
            Answer::NothingThere => write!(to, "nothing there"),
        }
    }
}

#[cfg(test)]
mod tests {
    use super::*;

    #[test]
    fn codes_are_as_agreed() {
        let unit = 1u64 << 40;
        let refused = Answer::Refused(Refusal { number: 9, place: 65_536 });
        assert_eq!(refused.code(), 9 * unit + 65_536);
        assert_eq!(Answer::Accepted { atoms: 512, rules: 2048 }.code(), 32 * unit + 512 * 65_536 + 2048);
        assert_eq!(Answer::Closed { undecided: 7 }.code(), 33 * unit + 7);
        assert_eq!(Answer::Contradiction.code(), 34 * unit);
        assert_eq!(Answer::Model.code(), 35 * unit);
        assert_eq!(Answer::NoModel.code(), 36 * unit);
        assert_eq!(Answer::Yes.code(), 37 * unit);
        assert_eq!(Answer::No.code(), 38 * unit);
        assert_eq!(Answer::Margin(-4).code(), 39 * unit + 4_294_967_292);
        assert_eq!(Answer::Margin(3).code(), 39 * unit + 4_294_967_299);
        assert_eq!(Answer::Part(5).code(), 40 * unit + 5);
        assert_eq!(Answer::NothingThere.code(), 41 * unit);
    }

    #[test]
    fn codes_are_read_back() {
        for answer in [Answer::Margin(-268_435_455), Answer::Margin(1_024_000_000), Answer::No] {
            assert_eq!(Answer::of_code(answer.code()), Some(answer));
        }
        let highest = Answer::Refused(Refusal { number: HIGHEST_REFUSAL, place: 65_532 });
        assert_eq!(Answer::of_code(highest.code()), Some(highest));
        assert_eq!(Answer::of_code(0), None);
        assert_eq!(Answer::of_code(17 << 40), None);
        assert_eq!(Answer::of_code(Answer::Model.code() + 1), None);
    }
}
