//! The calls, with their refusals in the paper's order and their answers in
//! one number each.
//!
//! Every call may be made with any bytes and any numbers. A refusal leaves
//! the map as it was, and no call touches a map's bytes past the atom count.

use super::forcing::{BothWays, Program, close, hold};
use super::maps::{CONTRADICTION, IN, Lent, OUT, read_decided, read_map, undecided};
use super::meaning::{agrees, is_stable, reach};
use super::reader::read_sheet;
use super::search::{first_model, opened};
use crate::answer::{Answer, Refusal};
use crate::sheet::{Literal, Rule, Sheet};

/// Checks a sheet: accepted, or one of the sheet's own refusals.
pub fn desk_check(sheet: &[u8]) -> u64 {
    coded(check(sheet))
}

/// Writes the smallest closed map that holds the compute lists.
pub fn desk_open(sheet: &[u8], map: &mut [u8]) -> u64 {
    coded(open(sheet, map))
}

/// Makes the map the smallest closed map that holds it and one atom's side.
pub fn desk_pin(sheet: &[u8], map: &mut [u8], atom: u64, side: u64) -> u64 {
    coded(pin(sheet, map, atom, side))
}

/// Writes the first agreeing stable model.
pub fn desk_solve(sheet: &[u8], map: &mut [u8]) -> u64 {
    coded(solve(sheet, map))
}

/// Tests whether a decided map is a stable model that agrees.
pub fn desk_test(sheet: &[u8], map: &[u8]) -> u64 {
    coded(test(sheet, map))
}

/// Reach less need of one rule on one map.
pub fn desk_margin(sheet: &[u8], map: &[u8], rule: u64) -> u64 {
    coded(margin(sheet, map, rule))
}

/// One part of one rule. Parts: 0 kind, 1 need, 2 head count, 3 head,
/// 4 positive count, 5 positive atom, 6 its weight, 7 negative count,
/// 8 negative atom, 9 its weight. The index counts from 0 and is looked at
/// only by the parts 3, 5, 6, 8 and 9; past the end of their list, and for
/// any other part number, nothing is there.
pub fn desk_rule(sheet: &[u8], rule: u64, part: u64, index: u64) -> u64 {
    coded(rule_part(sheet, rule, part, index))
}

fn coded(answer: Result<Answer, Refusal>) -> u64 {
    answer.unwrap_or_else(Answer::Refused).code()
}

fn check(bytes: &[u8]) -> Result<Answer, Refusal> {
    let sheet = read_sheet(bytes)?;
    Ok(Answer::Accepted { atoms: sheet.atoms, rules: sheet.rules.len() })
}

fn open(bytes: &[u8], map: &mut [u8]) -> Result<Answer, Refusal> {
    let sheet = read_sheet(bytes)?;
    let lent = lent_mut(&sheet, map)?;
    Ok(hand_back(opened(&Program::of(&sheet)), lent))
}

fn pin(bytes: &[u8], map: &mut [u8], atom: u64, side: u64) -> Result<Answer, Refusal> {
    let sheet = read_sheet(bytes)?;
    let lent = lent_mut(&sheet, map)?;
    let pinned = checked_pin(&sheet, atom, side)?;
    let after = match read_map(lent)? {
        Lent::Contradiction => Err(BothWays),
        Lent::Map(old) => pinned_map(&sheet, old, pinned),
    };
    Ok(hand_back(after, lent))
}

fn solve(bytes: &[u8], map: &mut [u8]) -> Result<Answer, Refusal> {
    let sheet = read_sheet(bytes)?;
    let lent = lent_mut(&sheet, map)?;
    match first_model(&Program::of(&sheet)) {
        Some(model) => {
            lent.copy_from_slice(&model);
            Ok(Answer::Model)
        }
        None => {
            lent.fill(CONTRADICTION);
            Ok(Answer::NoModel)
        }
    }
}

fn test(bytes: &[u8], map: &[u8]) -> Result<Answer, Refusal> {
    let sheet = read_sheet(bytes)?;
    let lent = lent(&sheet, map)?;
    read_decided(lent)?;
    let yes = is_stable(&sheet, lent) && agrees(&sheet, lent);
    Ok(if yes { Answer::Yes } else { Answer::No })
}

fn margin(bytes: &[u8], map: &[u8], number: u64) -> Result<Answer, Refusal> {
    let sheet = read_sheet(bytes)?;
    let lent = lent(&sheet, map)?;
    let rule = numbered_rule(&sheet, number)?;
    match read_map(lent)? {
        Lent::Contradiction => Err(Refusal { number: 14, place: 0 }),
        Lent::Map(map) => Ok(Answer::Margin(reach(rule, &map) as i64 - i64::from(rule.need))),
    }
}

fn rule_part(bytes: &[u8], number: u64, part: u64, index: u64) -> Result<Answer, Refusal> {
    let sheet = read_sheet(bytes)?;
    let rule = numbered_rule(&sheet, number)?;
    Ok(part_of(rule, part, index).map_or(Answer::NothingThere, Answer::Part))
}

fn part_of(rule: &Rule, part: u64, index: u64) -> Option<u64> {
    let index = usize::try_from(index).unwrap_or(usize::MAX);
    let atom = |literals: &[Literal]| literals.get(index).map(|literal| literal.atom as u64);
    let weight = |literals: &[Literal]| literals.get(index).map(|literal| u64::from(literal.weight));
    match part {
        0 => Some(rule.kind as u64),
        1 => Some(u64::from(rule.need)),
        2 => Some(rule.heads.len() as u64),
        3 => rule.heads.get(index).map(|&head| head as u64),
        4 => Some(rule.positive.len() as u64),
        5 => atom(&rule.positive),
        6 => weight(&rule.positive),
        7 => Some(rule.negative.len() as u64),
        8 => atom(&rule.negative),
        9 => weight(&rule.negative),
        _ => None,
    }
}

fn pinned_map(sheet: &Sheet, mut map: Vec<u8>, pinned: (usize, u8)) -> Result<Vec<u8>, BothWays> {
    hold(&mut map, pinned)?;
    close(&Program::of(sheet), &mut map)?;
    Ok(map)
}

/// Writes a closed map, or a contradiction, over the n lent bytes.
fn hand_back(after: Result<Vec<u8>, BothWays>, lent: &mut [u8]) -> Answer {
    match after {
        Ok(map) => {
            lent.copy_from_slice(&map);
            Answer::Closed { undecided: undecided(&map) }
        }
        Err(BothWays) => {
            lent.fill(CONTRADICTION);
            Answer::Contradiction
        }
    }
}

/// The first n bytes of a lent map, or refusal 10.
fn lent<'a>(sheet: &Sheet, map: &'a [u8]) -> Result<&'a [u8], Refusal> {
    map.get(..sheet.atoms).ok_or(Refusal { number: 10, place: 0 })
}

/// The first n bytes of a lent map to be written, or refusal 10.
fn lent_mut<'a>(sheet: &Sheet, map: &'a mut [u8]) -> Result<&'a mut [u8], Refusal> {
    map.get_mut(..sheet.atoms).ok_or(Refusal { number: 10, place: 0 })
}

/// The pin, or refusal 11.
fn checked_pin(sheet: &Sheet, atom: u64, side: u64) -> Result<(usize, u8), Refusal> {
    let refusal = Refusal { number: 11, place: 0 };
    let side = match side {
        1 => IN,
        2 => OUT,
        _ => return Err(refusal),
    };
    if (1..=sheet.atoms as u64).contains(&atom) { Ok((atom as usize, side)) } else { Err(refusal) }
}

/// The rule with this number, counted from 1, or refusal 13.
fn numbered_rule(sheet: &Sheet, number: u64) -> Result<&Rule, Refusal> {
    let index = number.checked_sub(1).and_then(|index| usize::try_from(index).ok());
    index.and_then(|index| sheet.rules.get(index)).ok_or(Refusal { number: 13, place: 0 })
}
