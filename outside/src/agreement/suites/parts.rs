//! The parts of rules, against the record that a sheet was written from.

use super::Outcome;
use crate::agreement::compare::Table;
use crate::answer::Answer;
use crate::desk::{After, Call, Desk};
use crate::draw::Draw;
use crate::sheet::{Literal, Rule, Sheet};

/// Every part of some rules at every index, one past the end, and beyond,
/// against the record the sheet was written from.
pub fn every_part(desk: &Desk, sheet: &Sheet, draw: &mut Draw) -> Outcome {
    let bytes = sheet.bytes();
    let table = Table { desk, sheet: &bytes };
    for (index, rule) in sheet.rules.iter().enumerate() {
        if index < 2 || draw.chance(1, 40) {
            every_part_of(&table, index as u64 + 1, rule)?;
        }
    }
    Ok(())
}

/// Every part of the rule with this number.
pub fn every_part_of(table: &Table, number: u64, rule: &Rule) -> Outcome {
    for (part, values) in parts(rule).iter().enumerate() {
        part_values(table, number, part as u64, values)?;
    }
    Ok(())
}

/// The parts of a rule by number: one value at any index, or a list.
enum Values {
    One(u64),
    List(Vec<u64>),
}

fn parts(rule: &Rule) -> [Values; 10] {
    let atoms = |literals: &[Literal]| Values::List(literals.iter().map(|literal| literal.atom as u64).collect());
    let weights = |literals: &[Literal]| Values::List(literals.iter().map(|literal| literal.weight.into()).collect());
    [
        Values::One(rule.kind as u64),
        Values::One(rule.need.into()),
        Values::One(rule.heads.len() as u64),
        Values::List(rule.heads.iter().map(|&head| head as u64).collect()),
        Values::One(rule.positive.len() as u64),
        atoms(&rule.positive),
        weights(&rule.positive),
        Values::One(rule.negative.len() as u64),
        atoms(&rule.negative),
        weights(&rule.negative),
    ]
}

fn part_values(table: &Table, rule: u64, part: u64, values: &Values) -> Outcome {
    let answers = |index: u64, answer: Answer| {
        let wanted = After { code: answer.code(), map: Vec::new() };
        table.answers(Call::Rule { rule, part, index }, &[], &wanted)
    };
    match values {
        Values::One(value) => {
            for index in [0, 1, u64::MAX] {
                answers(index, Answer::Part(*value))?;
            }
        }
        Values::List(values) => {
            for (index, &value) in values.iter().enumerate() {
                answers(index as u64, Answer::Part(value))?;
            }
            for past in [values.len() as u64, 1 << 32, u64::MAX] {
                answers(past, Answer::NothingThere)?;
            }
        }
    }
    Ok(())
}
