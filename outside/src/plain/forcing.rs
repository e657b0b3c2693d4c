//! The four forcing rules, looked at from the start after each change.

use super::maps::{IN, OUT, UNDECIDED, side};
use super::meaning::{meets, reach, reach_within, smallest_set, sure};
use crate::sheet::{Literal, Rule, Sheet};

/// A sheet, and its rules as the set that Simons' program is.
pub struct Program<'a> {
    pub sheet: &'a Sheet,
    /// The different rules of the sheet, in any order.
    pub different: Vec<&'a Rule>,
}

impl<'a> Program<'a> {
    pub fn of(sheet: &'a Sheet) -> Program<'a> {
        let mut different = sheet.rules.iter().collect::<Vec<_>>();
        different.sort_unstable();
        different.dedup();
        Program { sheet, different }
    }

    /// The rules as often as they stand, to compare with: rule 2 then forces
    /// less, and no search is shorter.
    pub fn counting_repeats(sheet: &'a Sheet) -> Program<'a> {
        Program { sheet, different: sheet.rules.iter().collect() }
    }
}

/// An atom was forced both ways.
#[derive(Clone, Copy, Debug, PartialEq, Eq)]
pub struct BothWays;

/// An atom and the side it must take.
type Forced = (usize, u8);

/// Puts an atom on a side, or finds it on the other one.
pub fn hold(map: &mut [u8], (atom, wanted): Forced) -> Result<(), BothWays> {
    let held = &mut map[atom - 1];
    if *held != UNDECIDED && *held != wanted {
        return Err(BothWays);
    }
    *held = wanted;
    Ok(())
}

/// Makes the map the smallest closed map that holds it. After an error the
/// map holds nothing of use.
pub fn close(program: &Program, map: &mut [u8]) -> Result<(), BothWays> {
    loop {
        let forced = first_addition(program, map);
        if forced.is_empty() {
            return Ok(());
        }
        for one in forced {
            hold(map, one)?;
        }
    }
}

/// A forcing rule: something that it adds to the map, or nothing.
type ForcingRule = fn(&Program, &[u8]) -> Vec<Forced>;

const FORCING_RULES: [ForcingRule; 4] = [sure_heads, last_reasons, barred_bodies, beyond_founded];

/// What the first of the rules with something to add to the map adds to it.
fn first_addition(program: &Program, map: &[u8]) -> Vec<Forced> {
    FORCING_RULES.iter().map(|rule| rule(program, map)).find(|forced| !forced.is_empty()).unwrap_or_default()
}

/// Rule 1: a rule other than choice with sure at or above its need has its
/// head in.
fn sure_heads(program: &Program, map: &[u8]) -> Vec<Forced> {
    for rule in program.sheet.rules.iter().filter(|rule| !rule.is_choice()) {
        if side(map, rule.heads[0]) != IN && meets(rule, sure(rule, map)) {
            return vec![(rule.heads[0], IN)];
        }
    }
    Vec::new()
}

/// Rule 2: where exactly one of the different rules can still give an atom
/// that is in, that body's literals that it cannot do without are made true.
fn last_reasons(program: &Program, map: &[u8]) -> Vec<Forced> {
    for (index, reason) in only_reasons(program, map).into_iter().enumerate() {
        let Reasons::One(rule) = reason else { continue };
        if side(map, index + 1) == IN {
            let most = reach(rule, map);
            let forced = literals_made(rule, map, true, |weight| !meets(rule, most - weight));
            if !forced.is_empty() {
                return forced;
            }
        }
    }
    Vec::new()
}

/// Rule 3: a rule other than choice with its head out has the literals that
/// would make its body hold made false.
fn barred_bodies(program: &Program, map: &[u8]) -> Vec<Forced> {
    for rule in program.sheet.rules.iter().filter(|rule| !rule.is_choice()) {
        if side(map, rule.heads[0]) == OUT {
            let least = sure(rule, map);
            let forced = literals_made(rule, map, false, |weight| meets(rule, least + weight));
            if !forced.is_empty() {
                return forced;
            }
        }
    }
    Vec::new()
}

/// Rule 4: atoms outside the founded set are out.
fn beyond_founded(program: &Program, map: &[u8]) -> Vec<Forced> {
    let founded = founded_set(program.sheet, map);
    let outside = (1..=program.sheet.atoms).filter(|&atom| !founded[atom - 1] && side(map, atom) != OUT);
    outside.map(|atom| (atom, OUT)).collect()
}

/// The set U of rule 4: the smallest set of atoms, none of them out, that
/// holds every head not out of any rule whose reach within the set meets
/// its need.
pub fn founded_set(sheet: &Sheet, map: &[u8]) -> Vec<bool> {
    let holds = |rule: &Rule, set: &[bool]| meets(rule, reach_within(rule, map, set));
    smallest_set(sheet, holds, |_, head| side(map, head) != OUT)
}

/// The different rules with a given head whose reach meets their need.
#[derive(Clone, Copy)]
enum Reasons<'a> {
    None,
    One(&'a Rule),
    More,
}

/// For each atom in order, the different rules that can still give it.
fn only_reasons<'a>(program: &Program<'a>, map: &[u8]) -> Vec<Reasons<'a>> {
    let mut reasons = vec![Reasons::None; program.sheet.atoms];
    for &rule in program.different.iter().filter(|rule| meets(rule, reach(rule, map))) {
        for &head in &rule.heads {
            reasons[head - 1] = match reasons[head - 1] {
                Reasons::None => Reasons::One(rule),
                Reasons::One(_) | Reasons::More => Reasons::More,
            };
        }
    }
    reasons
}

/// The undecided literals whose weight is picked, each made true or false.
fn literals_made(rule: &Rule, map: &[u8], truth: bool, picked: impl Fn(u64) -> bool) -> Vec<Forced> {
    let (positive, negative) = if truth { (IN, OUT) } else { (OUT, IN) };
    let made = |literals: &[Literal], wanted: u8| -> Vec<Forced> {
        let undecided = literals.iter().filter(|literal| side(map, literal.atom) == UNDECIDED);
        undecided.filter(|literal| picked(u64::from(literal.weight))).map(|literal| (literal.atom, wanted)).collect()
    };
    let mut forced = made(&rule.positive, positive);
    forced.extend(made(&rule.negative, negative));
    forced
}

#[cfg(test)]
mod tests {
    use super::*;
    use crate::sheet::{basic, choice, constraint};

    #[test]
    fn a_program_has_each_rule_once() {
        let (one, other) = (basic(1, &[2], &[]), constraint(1, 1, &[2], &[]));
        let rules = vec![one.clone(), other.clone(), choice(&[2], &[], &[]), one.clone(), one.clone(), other.clone()];
        let sheet = Sheet { atoms: 2, rules, ..Sheet::default() };
        let program = Program::of(&sheet);
        assert_eq!(program.different.len(), 3);
        assert!(sheet.rules.iter().all(|rule| program.different.contains(&rule)));
    }
}
