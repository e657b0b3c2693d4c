//! Sums over bodies, and which sets are stable.

use super::maps::{IN, OUT, side};
use crate::sheet::{Literal, Rule, Sheet};

/// The weight of the positive literals and of the negated literals that are
/// picked.
fn weight_of(rule: &Rule, positive: impl Fn(usize) -> bool, negative: impl Fn(usize) -> bool) -> u64 {
    let sum = |literals: &[Literal], picked: &dyn Fn(usize) -> bool| -> u64 {
        literals.iter().filter(|literal| picked(literal.atom)).map(|literal| u64::from(literal.weight)).sum()
    };
    sum(&rule.positive, &positive) + sum(&rule.negative, &negative)
}

/// The weight of positive atoms in plus negated atoms out.
pub fn sure(rule: &Rule, map: &[u8]) -> u64 {
    weight_of(rule, |atom| side(map, atom) == IN, |atom| side(map, atom) == OUT)
}

/// The weight of positive atoms not out plus negated atoms not in.
pub fn reach(rule: &Rule, map: &[u8]) -> u64 {
    weight_of(rule, |atom| side(map, atom) != OUT, |atom| side(map, atom) != IN)
}

/// Reach with positive atoms counted only if they are in `set`.
pub fn reach_within(rule: &Rule, map: &[u8], set: &[bool]) -> u64 {
    weight_of(rule, |atom| side(map, atom) != OUT && set[atom - 1], |atom| side(map, atom) != IN)
}

/// Whether the weight meets the rule's need.
pub fn meets(rule: &Rule, weight: u64) -> bool {
    weight >= u64::from(rule.need)
}

/// The smallest set that holds every atom that `allowed` lets in and that
/// the rules whose body holds in the set give.
pub fn smallest_set(
    sheet: &Sheet,
    holds: impl Fn(&Rule, &[bool]) -> bool,
    allowed: impl Fn(&Rule, usize) -> bool,
) -> Vec<bool> {
    let mut set = vec![false; sheet.atoms];
    loop {
        let before = set.clone();
        for rule in &sheet.rules {
            if holds(rule, &set) {
                for &head in rule.heads.iter().filter(|&&head| allowed(rule, head)) {
                    set[head - 1] = true;
                }
            }
        }
        if set == before {
            return set;
        }
    }
}

/// Whether the in-atoms of a decided map form a stable model: they are the
/// smallest set that contains everything the rules give from it.
pub fn is_stable(sheet: &Sheet, map: &[u8]) -> bool {
    let candidate = |atom| side(map, atom) == IN;
    let holds = |rule: &Rule, set: &[bool]| meets(rule, weight_of(rule, |atom| set[atom - 1], |atom| !candidate(atom)));
    let given = smallest_set(sheet, holds, |rule, head| !rule.is_choice() || candidate(head));
    (1..=sheet.atoms).all(|atom| given[atom - 1] == candidate(atom))
}

/// Whether the in-atoms hold all compute-in atoms and no compute-out atom.
pub fn agrees(sheet: &Sheet, map: &[u8]) -> bool {
    sheet.compute_in.iter().all(|&atom| side(map, atom) == IN)
        && sheet.compute_out.iter().all(|&atom| side(map, atom) != IN)
}
