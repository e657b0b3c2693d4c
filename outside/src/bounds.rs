//! Sheets with a bound about the sum of its rule's own weights. What check
//! answers to each is known from where its numbers were written, and without
//! a reader.

use crate::answer::{Answer, Refusal};
use crate::draw::Draw;
use crate::generator::{self, Size, long_forms};
use crate::sheet::{Kind, Literal, MOST_NUMBER, MOST_WEIGHT, Rule, Sheet, bytes_of, number_bytes};

/// The bytes of a sheet, and what check answers to them.
#[derive(Clone)]
pub struct Known {
    pub sheet: Vec<u8>,
    pub answer: Answer,
}

/// A constraint or weight rule anywhere among others, with a bound of 0, at
/// the sum of its weights, one above it and far above it, and with a dead
/// bound twice: each as it is, and with one thing wrong at the bound, after
/// it in the rule, or after the rule.
pub fn about_the_sum(draw: &mut Draw) -> Vec<Known> {
    let (mut sheet, index) = sheet_with_a_bound(draw);
    let sum = sheet.rules[index].sum();
    let far = draw.between(sum as usize + 1, MOST_NUMBER as usize) as u32;
    let mut known = Vec::new();
    for need in [0, sum, sum + 1, far, MOST_NUMBER] {
        sheet.rules[index].need = need;
        known.extend(Looked::at(&sheet, index).known());
    }
    let again = sheet.rules[index].clone();
    sheet.rules.push(again);
    known.extend(Looked::at(&sheet, index).known());
    known
}

/// A sheet, and which of its rules has a bound of 0 to be exchanged.
fn sheet_with_a_bound(draw: &mut Draw) -> (Sheet, usize) {
    let atoms = draw.pick(&[3, 6, 130]);
    let mut sheet = generator::sheet(draw, Size { atoms, rules: 3, body: 3 });
    sheet.atoms = sheet.atoms.max(1);
    let index = draw.between(0, sheet.rules.len());
    sheet.rules.insert(index, rule_with_a_bound(draw, sheet.atoms));
    (sheet, index)
}

/// Weights with sums about what one, two and three bytes can say.
const WEIGHTS: [u32; 9] = [0, 0, 1, 2, 63, 64, 127, 16_320, MOST_WEIGHT];

/// A rule with a body of up to six literals, often none, and a bound of 0.
fn rule_with_a_bound(draw: &mut Draw, atoms: usize) -> Rule {
    let kind = draw.pick(&[Kind::Constraint, Kind::Weight]);
    let most = draw.pick(&[0, 1, 3, 3]).min(atoms);
    let mut literals = || {
        let count = draw.between(0, most);
        let atoms = draw.subset(count, atoms).into_iter();
        let weight = |draw: &mut Draw| if kind == Kind::Weight { draw.pick(&WEIGHTS) } else { 1 };
        atoms.map(|atom| Literal { atom, weight: weight(draw) }).collect::<Vec<_>>()
    };
    let (positive, negative) = (literals(), literals());
    Rule { kind, heads: vec![draw.between(1, atoms)], need: 0, positive, negative }
}

/// A sheet with one of its rules, and where that rule's bound and end are
/// among the sheet's numbers.
struct Looked<'a> {
    sheet: &'a Sheet,
    index: usize,
    numbers: Vec<u32>,
    bound: usize,
    /// The first number after the rule.
    end: usize,
}

impl Looked<'_> {
    fn at(sheet: &Sheet, index: usize) -> Looked<'_> {
        let count = |rules: &[Rule]| rules.iter().map(|rule| rule.numbers().len()).sum::<usize>();
        let (kind, end) = (3 + count(&sheet.rules[..index]), 3 + count(&sheet.rules[..=index]));
        Looked { sheet, index, numbers: sheet.numbers(), bound: kind + 2, end }
    }

    fn rule(&self) -> &Rule {
        &self.sheet.rules[self.index]
    }

    /// The place of a number's first byte.
    fn place(&self, number: usize) -> usize {
        bytes_of(&self.numbers[..number]).len()
    }

    fn known(&self) -> Vec<Known> {
        [self.whole(), self.cut_off(), self.with_wrong_numbers()].concat()
    }

    /// The bytes of a sheet of which nothing but the bound is wrong before
    /// this place, with the answer that is due there. A dead bound comes
    /// before it if its rule has been read in full by then.
    fn known_at(&self, place: usize, due: Answer, sheet: Vec<u8>) -> Known {
        let is_dead = self.rule().need > self.rule().sum();
        let is_read = place >= self.place(self.end);
        Known { sheet, answer: if is_dead && is_read { refused(16, self.place(self.bound)) } else { due } }
    }

    /// The sheet as it is, and with one more byte.
    fn whole(&self) -> Vec<Known> {
        let bytes = self.sheet.bytes();
        let longer = [&bytes[..], &[0]].concat();
        let end = bytes.len();
        let accepted = Answer::Accepted { atoms: self.sheet.atoms, rules: self.sheet.rules.len() };
        vec![self.known_at(end, accepted, bytes), self.known_at(end, refused(8, end), longer)]
    }

    /// The sheet cut off at each byte from the bound's first on.
    fn cut_off(&self) -> Vec<Known> {
        let bytes = self.sheet.bytes();
        let ends = self.place(self.bound)..bytes.len();
        ends.map(|end| self.known_at(end, refused(1, end), bytes[..end].to_vec())).collect()
    }

    /// The sheet with each number from the bound to the first after the rule
    /// in each wrong form, and exchanged for each wrong number.
    fn with_wrong_numbers(&self) -> Vec<Known> {
        let mut known = Vec::new();
        for (number, wrong) in (self.bound..).zip(self.wrong_numbers()) {
            let (before, after) = (bytes_of(&self.numbers[..number]), bytes_of(&self.numbers[number + 1..]));
            let place = before.len();
            let wrong = wrong.into_iter().map(|(value, refusal)| (number_bytes(value), refusal));
            for (form, refusal) in wrong.chain(long_forms(self.numbers[number])) {
                let sheet = [&before[..], &form, &after].concat();
                known.push(self.known_at(place, refused(refusal, place), sheet));
            }
        }
        known
    }

    /// For the bound, each number after it in its rule, and the first after
    /// the rule: numbers that may not stand there, each with its refusal.
    fn wrong_numbers(&self) -> Vec<Vec<(u32, u8)>> {
        let above = self.sheet.atoms as u32 + 1;
        let count = vec![(above, 4)];
        let atoms = |literals: &[Literal]| {
            let mut wrong = vec![vec![(0, 6), (above, 6)]; literals.len()];
            for (next, literal) in wrong.iter_mut().skip(1).zip(literals) {
                next.push((literal.atom as u32, 7));
            }
            wrong
        };
        let rule = self.rule();
        let weights = if rule.kind == Kind::Weight { rule.length() } else { 0 };
        let is_last = self.index + 1 == self.sheet.rules.len();
        [
            vec![vec![], count.clone()],
            atoms(&rule.positive),
            vec![count.clone()],
            atoms(&rule.negative),
            vec![vec![(MOST_WEIGHT + 1, 4)]; weights],
            vec![if is_last { count } else { vec![(4, 5)] }],
        ]
        .concat()
    }
}

fn refused(number: u8, place: usize) -> Answer {
    Answer::Refused(Refusal { number, place })
}

#[cfg(test)]
mod tests {
    use super::*;
    use crate::sheet::{basic, weight};
    use std::collections::BTreeSet;

    #[test]
    fn a_dead_bound_is_due_where_its_rule_ends() {
        let rules = vec![weight(1, 500, &[(1, 20)], &[(2, 30)]), basic(2, &[], &[])];
        let sheet = Sheet { atoms: 2, rules, ..Sheet::default() };
        let known = Looked::at(&sheet, 0).known();
        let cases: [(&[u8], Answer); 8] = [
            (&[1, 2, 2, 5, 1, 0xf4, 3, 1, 1, 1, 2, 20, 30, 1, 2, 0, 0, 0, 0], refused(16, 5)),
            (&[1, 2, 2, 5, 1, 0xf4, 3, 1, 1, 1, 2, 20, 30, 1, 2, 0, 0, 0, 0, 0], refused(16, 5)),
            (&[1, 2, 2, 5, 1, 0xf4, 3, 1, 1, 1, 2, 20, 30, 4, 2, 0, 0, 0, 0], refused(16, 5)),
            (&[1, 2, 2, 5, 1, 0xf4, 3, 1, 1, 1, 2, 20, 30], refused(16, 5)),
            (&[1, 2, 2, 5, 1, 0xf4, 3, 1, 1, 1, 2, 20], refused(1, 12)),
            (&[1, 2, 2, 5, 1, 0xf4, 3, 1, 1, 1, 2, 20, 0x9e, 0, 1, 2, 0, 0, 0, 0], refused(2, 12)),
            (&[1, 2, 2, 5, 1, 0xf4, 3, 1, 3, 1, 2, 20, 30, 1, 2, 0, 0, 0, 0], refused(6, 8)),
            (&[1, 2, 2, 5, 1, 0xf4], refused(1, 6)),
        ];
        for (bytes, answer) in cases {
            let found = known.iter().find(|known| known.sheet == bytes).map(|known| known.answer);
            assert_eq!(found, Some(answer), "{bytes:?}");
        }
    }

    #[test]
    fn every_answer_is_due_somewhere() {
        let mut tops = BTreeSet::new();
        for seed in 0..100 {
            tops.extend(about_the_sum(&mut Draw::new("bounds", seed)).iter().map(|known| known.answer.code() >> 40));
        }
        assert_eq!(tops, BTreeSet::from([1, 2, 4, 5, 6, 7, 8, 15, 16, 32]));
    }

    #[test]
    fn both_kinds_stand_first_between_and_last_with_a_body_and_without() {
        let mut met = BTreeSet::new();
        for seed in 0..1000 {
            let (sheet, index) = sheet_with_a_bound(&mut Draw::new("bounds", seed));
            let rule = &sheet.rules[index];
            met.insert((rule.kind as u32, index == 0, index + 1 == sheet.rules.len(), rule.length() == 0));
        }
        assert_eq!(met.len(), 16, "{met:?}");
    }
}
