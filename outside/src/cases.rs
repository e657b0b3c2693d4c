//! The paper's cases, with the answers worked out by hand, and further cases
//! of each refusal.

use crate::agreement::Disagreement;
use crate::agreement::compare::Table;
use crate::answer::{Answer, Refusal};
use crate::desk::{After, Call, Desk};
use crate::sheet::{MOST_BYTES, Rule, Sheet, basic, choice, constraint, weight};

/// Holds a desk against every case here.
pub fn hold_all(desk: &Desk) -> Result<(), Disagreement> {
    for (sheet, number, place) in refused_sheets() {
        refused_by_every_call(desk, &sheet, Refusal { number, place })?;
    }
    bounds(desk)?;
    refused_calls(desk)?;
    worked().iter().chain(&repeats()).try_for_each(|case| case.hold(desk))?;
    repeats_by_number(desk)?;
    tests_of_sets(desk)?;
    margins(desk)?;
    rule_parts(desk)
}

/// Bytes that are no sheet, the refusal's number, and its place. The first
/// ten are the paper's.
pub fn refused_sheets() -> Vec<(Vec<u8>, u8, usize)> {
    let mut cases: Vec<(Vec<u8>, u8, usize)> = [
        (&[][..], 1, 0),
        (&[0x01, 0x02], 1, 2),
        (&[0x80, 0x00], 2, 0),
        (&[0x02], 3, 0),
        (&[0x01, 0x81, 0x04], 4, 1),
        (&[0x01, 0x80, 0x04], 1, 3),
        (&[0x01, 0x01, 0x01, 0x04], 5, 3),
        (&[0x01, 0x01, 0x01, 0x01, 0x02], 6, 4),
        (&[0x01, 0x02, 0x01, 0x03, 0x02, 0x02, 0x01], 7, 6),
        (&[0x01, 0x00, 0x00, 0x00, 0x00, 0x00], 8, 5),
        // The sheet ends inside a number; before the compute-out list.
        (&[0x81], 1, 1),
        (&[0x01, 0x80], 1, 2),
        (&[0x01, 0x80, 0x80, 0x80], 1, 4),
        (&[0x01, 0x00, 0x00, 0x00], 1, 4),
        // Not shortest; a fourth byte with its top bit set, whatever follows.
        // Both come before the number's value.
        (&[0x82, 0x00], 2, 0),
        (&[0x01, 0x81, 0x84, 0x00], 2, 1),
        (&[0x80, 0x80, 0x80, 0x00], 2, 0),
        (&[0x80, 0x80, 0x80], 1, 3),
        (&[0x80, 0x80, 0x80, 0x80], 15, 0),
        (&[0x01, 0xff, 0xff, 0xff, 0x80], 15, 1),
        (&[0x01, 0xff, 0xff, 0xff, 0x80, 0x00], 15, 1),
        (&[0x01, 0xff, 0xff, 0xff, 0x80, 0x01], 15, 1),
        (&[0x01, 0x01, 0x01, 0x02, 0x01, 0xff, 0xff, 0xff, 0xff, 0x01], 15, 5),
        // The edition is 0; is 129.
        (&[0x00], 3, 0),
        (&[0x81, 0x01], 3, 0),
        // 2,049 rules; a body list of 2 of 1; a head list of 0 and of 2 of 1;
        // a compute list of 1 of 0; a weight of 1,000,001.
        (&[0x01, 0x00, 0x81, 0x10], 4, 2),
        (&[0x01, 0x01, 0x01, 0x01, 0x01, 0x02], 4, 5),
        (&[0x01, 0x01, 0x01, 0x03, 0x00], 4, 4),
        (&[0x01, 0x01, 0x01, 0x03, 0x02], 4, 4),
        (&[0x01, 0x00, 0x00, 0x01], 4, 3),
        (&[0x01, 0x00, 0x00, 0x00, 0x01], 4, 4),
        (&[0x01, 0x01, 0x01, 0x05, 0x01, 0x00, 0x01, 0x01, 0x00, 0xc1, 0x84, 0x3d], 4, 9),
        // Kinds 0, 4, 6 and 128.
        (&[0x01, 0x01, 0x01, 0x00], 5, 3),
        (&[0x01, 0x00, 0x01, 0x06], 5, 3),
        (&[0x01, 0x00, 0x01, 0x80, 0x01], 5, 3),
        // Atom 0; an atom on a sheet without atoms; 257 on a sheet of 1; an
        // atom above n in a list, which comes before the order of the list.
        (&[0x01, 0x01, 0x01, 0x01, 0x00], 6, 4),
        (&[0x01, 0x00, 0x01, 0x01, 0x01], 6, 4),
        (&[0x01, 0x01, 0x01, 0x01, 0x81, 0x02], 6, 4),
        (&[0x01, 0x02, 0x01, 0x03, 0x02, 0x02, 0x00], 6, 6),
        (&[0x01, 0x02, 0x00, 0x01, 0x03], 6, 4),
        // The same atom twice: in a head list, in a body, in a compute list.
        (&[0x01, 0x02, 0x01, 0x03, 0x02, 0x01, 0x01], 7, 6),
        (&[0x01, 0x02, 0x01, 0x01, 0x01, 0x02, 0x02, 0x01], 7, 7),
        (&[0x01, 0x02, 0x01, 0x01, 0x01, 0x00, 0x02, 0x02, 0x02], 7, 8),
        (&[0x01, 0x02, 0x00, 0x00, 0x02, 0x02, 0x01], 7, 6),
        // More bytes, whatever they are.
        (&[0x01, 0x00, 0x00, 0x00, 0x00, 0x80], 8, 5),
    ]
    .into_iter()
    .map(|(bytes, number, place)| (bytes.to_vec(), number, place))
    .collect();
    cases.push((vec![0; MOST_BYTES], 3, 0));
    cases.push((vec![0; MOST_BYTES + 1], 9, MOST_BYTES));
    let mut long = vec![0x01, 0x00, 0x00, 0x00, 0x00];
    long.resize(MOST_BYTES, 0);
    cases.push((long.clone(), 8, 5));
    long.push(0);
    cases.push((long, 9, MOST_BYTES));
    cases
}

/// A sheet that is refused is refused by every call, before anything that is
/// wrong with the call's other inputs, and whichever rule it asks for.
pub fn refused_by_every_call(desk: &Desk, sheet: &[u8], refusal: Refusal) -> Result<(), Disagreement> {
    let table = Table { desk, sheet };
    let map = [9, 3, 0];
    let wanted = refused(refusal.number, refusal.place, &map);
    table.answers(Call::Check, &map, &wanted)?;
    table.answers(Call::Open, &map, &wanted)?;
    table.answers(Call::Solve, &map, &wanted)?;
    table.answers(Call::Test, &map, &wanted)?;
    for (number, part) in [(0, 99), (1, 0)] {
        table.answers(Call::Pin { atom: number, side: number }, &map, &wanted)?;
        table.answers(Call::Margin { rule: number }, &map, &wanted)?;
        table.answers(Call::Rule { rule: number, part, index: part }, &map, &wanted)?;
    }
    Ok(())
}

/// Request j: a bound above the sum of its rule's own weights is refused once
/// the rule is read, and a bound equal to the sum is not.
fn bounds(desk: &Desk) -> Result<(), Disagreement> {
    for &(sheet, number, place) in DEAD_BOUNDS {
        refused_by_every_call(desk, sheet, Refusal { number, place })?;
    }
    let mut long = vec![1, 1, 1, 2, 1, 1, 0, 0, 0, 0];
    long.resize(MOST_BYTES, 0);
    refused_by_every_call(desk, &long, Refusal { number: 16, place: 5 })?;
    long.push(0);
    refused_by_every_call(desk, &long, Refusal { number: 9, place: MOST_BYTES })?;
    LIVING_BOUNDS.iter().try_for_each(|living| living.hold(desk))
}

/// Sheets with a bound above the sum, the refusal's number, and its place.
const DEAD_BOUNDS: &[(&[u8], u8, usize)] = &[
    // After the rule that 2 is in: 3 of {2, not 3}; 51 and 500 of {2 = 20,
    // not 3 = 30}; 2,000,001 of {2 = 1,000,000, not 3 = 1,000,000}; 3 of
    // {2, not 2}.
    (&[1, 3, 2, 1, 2, 0, 0, 2, 1, 3, 1, 2, 1, 3, 0, 0], 16, 9),
    (&[1, 3, 2, 1, 2, 0, 0, 5, 1, 51, 1, 2, 1, 3, 20, 30, 0, 0], 16, 9),
    (&[1, 3, 2, 1, 2, 0, 0, 5, 1, 0xf4, 3, 1, 2, 1, 3, 20, 30, 0, 0], 16, 9),
    (&[1, 3, 2, 1, 2, 0, 0, 5, 1, 0x81, 0x89, 0x7a, 1, 2, 1, 3, 0xc0, 0x84, 0x3d, 0xc0, 0x84, 0x3d, 0, 0], 16, 9),
    (&[1, 3, 2, 1, 2, 0, 0, 2, 1, 3, 1, 2, 1, 2, 0, 0], 16, 9),
    // 1 of nothing; 268,435,455 of nothing; 1 of {2 = 0}; 1 of nothing with
    // the head 128.
    (&[1, 1, 1, 2, 1, 1, 0, 0, 0, 0], 16, 5),
    (&[1, 1, 1, 5, 1, 1, 0, 0, 0, 0], 16, 5),
    (&[1, 1, 1, 2, 1, 0xff, 0xff, 0xff, 0x7f, 0, 0, 0, 0], 16, 5),
    (&[1, 1, 1, 5, 1, 0xff, 0xff, 0xff, 0x7f, 0, 0, 0, 0], 16, 5),
    (&[1, 2, 1, 5, 1, 1, 1, 2, 0, 0, 0, 0], 16, 5),
    (&[1, 0x80, 1, 1, 2, 0x80, 1, 1, 0, 0, 0, 0], 16, 7),
    // First comes what else is wrong in the rule. In the bound: padded; five
    // bytes.
    (&[1, 2, 1, 2, 1, 0x89, 0, 0, 0, 0, 0], 2, 5),
    (&[1, 2, 1, 2, 1, 0xff, 0xff, 0xff, 0xff, 0, 0, 0, 0], 15, 5),
    // In the lists: 3 of 2 atoms; the atoms 3 and 0; an atom twice.
    (&[1, 2, 1, 2, 1, 9, 3, 1, 2, 3, 0, 0, 0], 4, 6),
    (&[1, 2, 1, 2, 1, 9, 0, 3, 1, 2, 3, 0, 0], 4, 7),
    (&[1, 2, 1, 2, 1, 9, 1, 3, 0, 0, 0], 6, 7),
    (&[1, 2, 1, 2, 1, 9, 1, 2, 1, 0, 0, 0], 6, 9),
    (&[1, 2, 1, 2, 1, 9, 2, 2, 2, 0, 0, 0], 7, 8),
    // In the weights: 1,000,001, of a positive and of a negated atom; padded,
    // likewise; five bytes.
    (&[1, 1, 1, 5, 1, 0xff, 0xff, 0xff, 0x7f, 1, 1, 0, 0xc1, 0x84, 0x3d, 0, 0], 4, 12),
    (&[1, 1, 1, 5, 1, 0xff, 0xff, 0xff, 0x7f, 0, 1, 1, 0xc1, 0x84, 0x3d, 0, 0], 4, 12),
    (&[1, 1, 1, 5, 1, 9, 1, 1, 0, 0x83, 0, 0, 0], 2, 9),
    (&[1, 1, 1, 5, 1, 9, 1, 1, 1, 1, 3, 0x83, 0, 0, 0], 2, 11),
    (&[1, 1, 1, 5, 1, 9, 1, 1, 1, 1, 3, 0xff, 0xff, 0xff, 0xff, 0, 0], 15, 11),
    // The sheet ends after the bound, in a list, before the weights, between
    // them, and in one.
    (&[1, 2, 1, 5, 1, 9], 1, 6),
    (&[1, 2, 1, 2, 1, 9, 2, 1], 1, 8),
    (&[1, 2, 1, 5, 1, 9, 1, 1, 1, 2], 1, 10),
    (&[1, 2, 1, 5, 1, 9, 1, 1, 1, 2, 3], 1, 11),
    (&[1, 2, 1, 5, 1, 9, 1, 1, 1, 2, 3, 0x80], 1, 12),
    // Later comes what is wrong after the rule: the sheet ends; the next rule
    // is of kind 4, or missing, or has the head 2 of 1, or a dead bound; a
    // compute list of 2 of 1; one byte too many.
    (&[1, 1, 1, 2, 1, 1, 0, 0], 16, 5),
    (&[1, 1, 2, 2, 1, 1, 0, 0, 4], 16, 5),
    (&[1, 1, 2, 5, 1, 1, 0, 0], 16, 5),
    (&[1, 1, 2, 2, 1, 1, 0, 0, 1, 2, 0, 0, 0, 0], 16, 5),
    (&[1, 1, 2, 2, 1, 1, 0, 0, 5, 1, 1, 0, 0, 0, 0], 16, 5),
    (&[1, 1, 1, 2, 1, 1, 0, 0, 2], 16, 5),
    (&[1, 1, 1, 5, 1, 1, 0, 0, 0, 0, 0], 16, 5),
    // The rule before is of kind 4; has a bound of 0.
    (&[1, 1, 2, 4, 2, 1, 1, 0, 0, 0, 0], 5, 3),
    (&[1, 1, 2, 2, 1, 0, 0, 0, 5, 1, 1, 0, 0, 0, 0], 16, 10),
];

/// A sheet whose last rule has a bound equal to the sum.
struct Living {
    sheet: &'static [u8],
    bound: u64,
    /// The map that open leaves, which is the only stable model.
    map: &'static [u8],
    /// The rule's margin on that map.
    margin: i64,
}

const LIVING_BOUNDS: [Living; 7] = [
    // After the rule that 2 is in: 2 of {2, not 3}; 50 of {2 = 20, not 3 =
    // 30}; 2,000,000 of {2 = 1,000,000, not 3 = 1,000,000}; 2 of {2, not 2},
    // of which one is false on every decided map.
    Living { sheet: &[1, 3, 2, 1, 2, 0, 0, 2, 1, 2, 1, 2, 1, 3, 0, 0], bound: 2, map: &[1, 1, 2], margin: 0 },
    Living { sheet: &[1, 3, 2, 1, 2, 0, 0, 5, 1, 50, 1, 2, 1, 3, 20, 30, 0, 0], bound: 50, map: &[1, 1, 2], margin: 0 },
    Living {
        sheet: &[1, 3, 2, 1, 2, 0, 0, 5, 1, 0x80, 0x89, 0x7a, 1, 2, 1, 3, 0xc0, 0x84, 0x3d, 0xc0, 0x84, 0x3d, 0, 0],
        bound: 2_000_000,
        map: &[1, 1, 2],
        margin: 0,
    },
    Living { sheet: &[1, 3, 2, 1, 2, 0, 0, 2, 1, 2, 1, 2, 1, 2, 0, 0], bound: 2, map: &[2, 1, 2], margin: -1 },
    // 0 of nothing; 0 of {2 = 0}.
    Living { sheet: &[1, 1, 1, 2, 1, 0, 0, 0, 0, 0], bound: 0, map: &[1], margin: 0 },
    Living { sheet: &[1, 1, 1, 5, 1, 0, 0, 0, 0, 0], bound: 0, map: &[1], margin: 0 },
    Living { sheet: &[1, 2, 1, 5, 1, 0, 1, 2, 0, 0, 0, 0], bound: 0, map: &[1, 2], margin: 0 },
];

impl Living {
    /// Every call on the sheet.
    fn hold(&self, desk: &Desk) -> Result<(), Disagreement> {
        let table = Table { desk, sheet: self.sheet };
        let (atoms, rules) = (self.map.len(), self.sheet[2].into());
        let rule = self.sheet[2].into();
        let old = vec![9; atoms];
        let on_map = |answer: Answer| after(answer, self.map, &[]);
        table.answers(Call::Check, &old, &after(Answer::Accepted { atoms, rules }, &old, &[]))?;
        table.answers(Call::Open, &old, &on_map(closed(self.map)))?;
        table.answers(Call::Pin { atom: 1, side: self.map[0].into() }, self.map, &on_map(closed(self.map)))?;
        table.answers(Call::Solve, &old, &on_map(Answer::Model))?;
        table.answers(Call::Test, self.map, &on_map(Answer::Yes))?;
        table.answers(Call::Margin { rule }, self.map, &on_map(Answer::Margin(self.margin)))?;
        table.answers(Call::Rule { rule, part: 1, index: 0 }, self.map, &on_map(Answer::Part(self.bound)))
    }
}

/// Refusals 10 to 14, and their order: 10, 11, 13, 12, 14.
fn refused_calls(desk: &Desk) -> Result<(), Disagreement> {
    let sheet = Sheet { atoms: 3, rules: vec![choice(&[1, 2, 3], &[], &[])], ..Sheet::default() }.bytes();
    let table = Table { desk, sheet: &sheet };
    let pin = |atom, side| Call::Pin { atom, side };
    let margin = |rule| Call::Margin { rule };
    let cases: [(Call, &[u8], u8, usize); 32] = [
        (Call::Open, &[0, 0], 10, 0),
        (Call::Solve, &[], 10, 0),
        (Call::Test, &[1, 2], 10, 0),
        (pin(1, 1), &[0, 0], 10, 0),
        (pin(0, 0), &[9, 9], 10, 0),
        (margin(1), &[0, 0], 10, 0),
        (margin(0), &[9], 10, 0),
        (pin(0, 1), &[0, 0, 0], 11, 0),
        (pin(4, 1), &[0, 0, 0], 11, 0),
        (pin(1, 0), &[0, 0, 0], 11, 0),
        (pin(1, 3), &[0, 0, 0], 11, 0),
        (pin(u64::MAX, 1), &[0, 0, 0], 11, 0),
        (pin((1 << 32) + 1, 1), &[0, 0, 0], 11, 0),
        (pin(1, (1 << 32) + 1), &[0, 0, 0], 11, 0),
        (pin(4, 1), &[9, 0, 0], 11, 0),
        (pin(4, 1), &[3, 3, 3], 11, 0),
        (pin(1, 1), &[0, 3, 0], 12, 1),
        (pin(1, 1), &[0, 0, 4], 12, 2),
        (pin(1, 1), &[3, 3, 0], 12, 2),
        (pin(1, 1), &[3, 9, 0], 12, 1),
        (pin(1, 1), &[255, 3, 3], 12, 0),
        (Call::Test, &[0, 1, 2], 12, 0),
        (Call::Test, &[1, 2, 3, 9], 12, 2),
        (Call::Test, &[3, 3, 3], 12, 0),
        (margin(0), &[9, 0, 0], 13, 0),
        (margin(2), &[0, 0, 0], 13, 0),
        (margin(2), &[3, 3, 3], 13, 0),
        (margin((1 << 32) + 1), &[0, 0, 0], 13, 0),
        (margin(1), &[3, 3, 0], 12, 2),
        (margin(1), &[2, 1, 9], 12, 2),
        (margin(1), &[3, 3, 3], 14, 0),
        (Call::Rule { rule: 2, part: 99, index: 0 }, &[], 13, 0),
    ];
    for (call, map, number, place) in cases {
        table.answers(call, map, &refused(number, place, map))?;
    }
    let empty = [0x01, 0x00, 0x00, 0x00, 0x00];
    let table = Table { desk, sheet: &empty };
    table.answers(pin(1, 1), &[7], &refused(11, 0, &[7]))?;
    table.answers(margin(1), &[7], &refused(13, 0, &[7]))
}

/// A sheet and what open, some pins, and solve make of it.
#[derive(Clone)]
pub struct Worked {
    pub name: &'static str,
    pub sheet: Sheet,
    /// The map after open; all 3 for a contradiction.
    pub open: &'static [u8],
    pub pins: &'static [(u64, u64)],
    /// The map after open and then the pins.
    pub pinned: &'static [u8],
    /// The first model; all 3 for none.
    pub first: &'static [u8],
}

impl Worked {
    /// Open, the pins and solve, with two bytes past the atoms that stay, and
    /// test and check on what they leave.
    pub fn hold(&self, desk: &Desk) -> Result<(), Disagreement> {
        let bytes = self.sheet.bytes();
        let table = Table { desk, sheet: &bytes };
        let accepted = Answer::Accepted { atoms: self.sheet.atoms, rules: self.sheet.rules.len() };
        table.answers(Call::Check, &[], &after(accepted, &[], &[]))?;
        let old = [vec![0xee; self.sheet.atoms], vec![0xaa, 0xbb]].concat();
        table.answers(Call::Open, &old, &after(closed(self.open), self.open, &[0xaa, 0xbb]))?;
        let mut map = [self.open, &[0xaa, 0xbb]].concat();
        for (index, &(atom, side)) in self.pins.iter().enumerate() {
            let call = Call::Pin { atom, side };
            if index + 1 == self.pins.len() {
                table.answers(call, &map, &after(closed(self.pinned), self.pinned, &[0xaa, 0xbb]))?;
            }
            map = table.made(call, &map)?.map;
        }
        let found = if self.first.contains(&3) { Answer::NoModel } else { Answer::Model };
        table.answers(Call::Solve, &old, &after(found, self.first, &[0xaa, 0xbb]))?;
        if found == Answer::Model {
            table.answers(Call::Test, self.first, &after(Answer::Yes, self.first, &[]))?;
        }
        Ok(())
    }
}

/// The paper's worked cases in its order, and some more.
pub fn worked() -> Vec<Worked> {
    let counted = || vec![choice(&[2, 3, 4, 5], &[], &[]), constraint(1, 2, &[2, 3, 4, 5], &[])];
    vec![
        case("no atoms", 0, vec![], &[], &[]),
        case("1 if 1", 1, vec![basic(1, &[1], &[])], &[2], &[2]),
        case("1 if not 1", 1, vec![basic(1, &[], &[1])], &[0], &[3]),
        case("either", 2, vec![basic(1, &[], &[2]), basic(2, &[], &[1])], &[0, 0], &[1, 2]),
        case("choice", 1, vec![choice(&[1], &[], &[])], &[0], &[1]),
        case(
            "a loop of two",
            3,
            vec![basic(1, &[2], &[]), basic(2, &[1], &[]), basic(3, &[], &[1])],
            &[2, 2, 1],
            &[2, 2, 1],
        ),
        case("bound 0", 2, vec![constraint(1, 0, &[2], &[])], &[1, 2], &[1, 2]),
        computing(case("in and out", 1, vec![choice(&[1], &[], &[])], &[3], &[3]), &[1], &[1]),
        pinned(case("at most one", 5, counted(), &[0; 5], &[1; 5]), &[(1, 2), (2, 1)], &[2, 1, 2, 2, 2]),
        pinned(case("two of two", 5, counted(), &[0; 5], &[1; 5]), &[(1, 1), (2, 2), (3, 2)], &[1, 2, 2, 1, 1]),
        pinned(case("weights", 4, weight_case(), &[0; 4], &[1; 4]), &[(1, 1)], &[1, 0, 1, 0]),
        case("P5", 8, p5(), &[0, 0, 1, 2, 2, 1, 2, 2], &[1, 2, 1, 2, 2, 1, 2, 2]),
        // Two rules can give 1, so neither body is forced; one rule alone
        // forces its body.
        pinned(
            case(
                "two reasons",
                3,
                vec![choice(&[2, 3], &[], &[]), basic(1, &[2], &[]), basic(1, &[3], &[])],
                &[0; 3],
                &[1; 3],
            ),
            &[(1, 1)],
            &[1, 0, 0],
        ),
        pinned(
            case("one reason", 2, vec![choice(&[2], &[], &[]), basic(1, &[2], &[])], &[0; 2], &[1; 2]),
            &[(1, 1)],
            &[1, 1],
        ),
        // A choice rule forces its body, but neither its head nor, with its
        // head out, its body.
        pinned(
            case("choice as reason", 2, vec![choice(&[2], &[], &[]), choice(&[1], &[2], &[])], &[0; 2], &[1; 2]),
            &[(1, 1)],
            &[1, 1],
        ),
        pinned(
            case("choice unused", 2, vec![choice(&[2], &[], &[]), choice(&[1], &[2], &[])], &[0; 2], &[1; 2]),
            &[(1, 2), (2, 1)],
            &[2, 1],
        ),
        // A pin against the map, and a pin after that.
        pinned(case("against", 2, vec![choice(&[1, 2], &[], &[])], &[0; 2], &[1; 2]), &[(1, 1), (1, 2)], &[3, 3]),
        pinned(
            case("after a contradiction", 2, vec![choice(&[1, 2], &[], &[])], &[0; 2], &[1; 2]),
            &[(1, 1), (1, 2), (2, 1)],
            &[3, 3],
        ),
        // Both signs of 2 in one body: two literals, never both true.
        pinned(
            case("both signs", 2, vec![choice(&[2], &[], &[]), basic(1, &[2], &[2])], &[0, 0], &[2, 1]),
            &[(1, 1)],
            &[3, 3],
        ),
        computing(case("compute lists", 2, vec![choice(&[1, 2], &[], &[])], &[2, 1], &[2, 1]), &[2], &[1]),
        // A bound equal to the sum needs every literal of the body.
        pinned(
            case("all of two", 3, vec![choice(&[2, 3], &[], &[]), constraint(1, 2, &[2], &[3])], &[0; 3], &[1, 1, 2]),
            &[(1, 1)],
            &[1, 1, 2],
        ),
        pinned(
            case(
                "the whole weight",
                3,
                vec![choice(&[2, 3], &[], &[]), weight(1, 50, &[(2, 20)], &[(3, 30)])],
                &[0; 3],
                &[1, 1, 2],
            ),
            &[(1, 2), (2, 1)],
            &[2, 1, 1],
        ),
    ]
}

/// Request f: a repeated rule counts once, and a rule that differs in
/// anything is another rule. The paper's own cases have no repeats.
pub fn repeats() -> Vec<Worked> {
    [short_repeats(), near_repeats()].concat()
}

/// With 2 undecided, "1 if 2" has a reach of 1 and a need of 1. It is the
/// only rule with the head 1, however often it stands there, and 1 less 1 is
/// below 1: 2 is in. "1 if 1 of {2}" says the same in another kind. The two
/// are two rules, each has a reach of 1, and neither is forced; only a guess
/// finds the model.
fn short_repeats() -> Vec<Worked> {
    let (one, same_meaning) = (basic(1, &[2], &[]), constraint(1, 1, &[2], &[]));
    let (other_sign, other_atom) = (basic(1, &[], &[2]), basic(1, &[3], &[]));
    vec![
        asked("one copy", &[&one], &[1, 1]),
        asked("a repeated reason", &[&one, &one], &[1, 1]),
        asked("a reason three times", &[&same_meaning, &same_meaning, &same_meaning], &[1, 1]),
        asked("two reasons of one meaning", &[&one, &same_meaning], &[1, 0]),
        asked("repeats of two reasons", &[&one, &same_meaning, &same_meaning, &one], &[1, 0]),
        asked("one sign and the other", &[&one, &other_sign, &one], &[1, 0]),
        // With 3 out, "1 if 3" has a reach of 0, below its need of 1; what is
        // left is "1 if 2", twice.
        pinned(asked("repeats and another", &[&one, &other_atom, &one], &[1, 0, 0]), &[(3, 2)], &[1, 1, 2]),
    ]
}

fn near_repeats() -> Vec<Worked> {
    // 3 of {2 = 2, 3 = 2}: 4 less 2 is below 3, for both. With 3 = 3 it is
    // another rule, of which 5 less 3 is below 3, and 5 less 2 is not.
    let (twos, three) = (weight(1, 3, &[(2, 2), (3, 2)], &[]), weight(1, 3, &[(2, 2), (3, 3)], &[]));
    // 2 of {2, 3} needs both. 1 of {2, 3} is another rule and needs neither.
    let (both, either) = (constraint(1, 2, &[2, 3], &[]), constraint(1, 1, &[2, 3], &[]));
    // 1, or 1 and 3, may be taken if 2 is: two rules that both need 2.
    let (one_head, two_heads) = (choice(&[1], &[2], &[]), choice(&[1, 3], &[2], &[]));
    vec![
        asked("repeated weights", &[&twos, &twos], &[1, 1, 1]),
        asked("the other weights alone", &[&three, &three], &[1, 0, 1]),
        asked("two reasons but for a weight", &[&twos, &three, &twos], &[1, 0, 0]),
        asked("a repeated need", &[&both, &both], &[1, 1, 1]),
        asked("two reasons but for the need", &[&both, &either], &[1, 0, 0]),
        asked("a repeated choice", &[&two_heads, &two_heads], &[1, 1, 0]),
        asked("two reasons but for a head", &[&two_heads, &one_head], &[1, 0, 0]),
    ]
}

/// 1 is asked for and all other atoms are free; then come the rules that
/// give 1. The first model has all the atoms.
fn asked(name: &'static str, reasons: &[&Rule], open: &'static [u8]) -> Worked {
    let others = (2..=open.len()).collect::<Vec<_>>();
    let mut rules = vec![choice(&others, &[], &[])];
    rules.extend(reasons.iter().copied().cloned());
    computing(case(name, open.len(), rules, open, &[1; 3][..open.len()]), &[1], &[])
}

fn case(name: &'static str, atoms: usize, rules: Vec<Rule>, open: &'static [u8], first: &'static [u8]) -> Worked {
    Worked { name, sheet: Sheet { atoms, rules, ..Sheet::default() }, open, pins: &[], pinned: open, first }
}

fn pinned(case: Worked, pins: &'static [(u64, u64)], pinned: &'static [u8]) -> Worked {
    Worked { pins, pinned, ..case }
}

fn computing(case: Worked, compute_in: &[usize], compute_out: &[usize]) -> Worked {
    let sheet = Sheet { compute_in: compute_in.to_vec(), compute_out: compute_out.to_vec(), ..case.sheet };
    Worked { sheet, ..case }
}

fn weight_case() -> Vec<Rule> {
    vec![choice(&[2, 3, 4], &[], &[]), weight(1, 6, &[(2, 3), (3, 4)], &[(4, 2)])]
}

/// a if not b, c; b if not a; c; d if not g, e; e if not g, d; f if not d;
/// g if not c; h if g.
fn p5() -> Vec<Rule> {
    vec![
        basic(1, &[3], &[2]),
        basic(2, &[], &[1]),
        basic(3, &[], &[]),
        basic(4, &[5], &[7]),
        basic(5, &[4], &[7]),
        basic(6, &[], &[4]),
        basic(7, &[], &[3]),
        basic(8, &[7], &[]),
    ]
}

/// Sets that are and are not stable, and sets that do not agree.
fn tests_of_sets(desk: &Desk) -> Result<(), Disagreement> {
    let either = vec![basic(1, &[], &[2]), basic(2, &[], &[1])];
    let cases: [(Vec<Rule>, &[u8], Answer); 10] = [
        (vec![basic(1, &[1], &[])], &[1], Answer::No),
        (vec![basic(1, &[1], &[])], &[2], Answer::Yes),
        (vec![basic(1, &[], &[1])], &[1], Answer::No),
        (vec![basic(1, &[], &[1])], &[2], Answer::No),
        (vec![choice(&[1], &[], &[])], &[1], Answer::Yes),
        (vec![choice(&[1], &[], &[])], &[2], Answer::Yes),
        (either.clone(), &[1, 2], Answer::Yes),
        (either.clone(), &[2, 1], Answer::Yes),
        (either.clone(), &[1, 1], Answer::No),
        (either, &[2, 2], Answer::No),
    ];
    for (rules, map, answer) in cases {
        let sheet = Sheet { atoms: map.len(), rules, ..Sheet::default() }.bytes();
        Table { desk, sheet: &sheet }.answers(Call::Test, map, &after(answer, map, &[]))?;
    }
    let free = Sheet { atoms: 2, rules: vec![choice(&[1, 2], &[], &[])], compute_in: vec![1], compute_out: vec![2] };
    let bytes = free.bytes();
    for (map, answer) in [([1, 2], Answer::Yes), ([1, 1], Answer::No), ([2, 2], Answer::No)] {
        Table { desk, sheet: &bytes }.answers(Call::Test, &map, &after(answer, &map, &[]))?;
    }
    Ok(())
}

/// The weight case: 3 after open, -4 after pins 2 out and 3 out.
fn margins(desk: &Desk) -> Result<(), Disagreement> {
    let sheet = Sheet { atoms: 4, rules: weight_case(), ..Sheet::default() }.bytes();
    let table = Table { desk, sheet: &sheet };
    for (map, margin) in [([0, 0, 0, 0], 3), ([2, 2, 2, 0], -4), ([0, 1, 1, 1], 1), ([1, 2, 0, 1], -2)] {
        table.answers(Call::Margin { rule: 2 }, &map, &after(Answer::Margin(margin), &map, &[]))?;
    }
    table.answers(Call::Pin { atom: 2, side: 2 }, &[0; 4], &after(closed(&[0, 2, 0, 0]), &[0, 2, 0, 0], &[]))?;
    let last = [2, 2, 2, 0];
    table.answers(Call::Pin { atom: 3, side: 2 }, &[0, 2, 0, 0], &after(closed(&last), &last, &[]))?;
    table.answers(Call::Margin { rule: 1 }, &last, &after(Answer::Margin(0), &last, &[]))
}

/// Rules are numbered as they stand: "1 if 2" twice, and then a choice of 2.
fn repeats_by_number(desk: &Desk) -> Result<(), Disagreement> {
    let rules = vec![basic(1, &[2], &[]), basic(1, &[2], &[]), choice(&[2], &[], &[])];
    let sheet = Sheet { atoms: 2, rules, ..Sheet::default() }.bytes();
    let table = Table { desk, sheet: &sheet };
    let map = [1, 2];
    for (rule, kind, margin) in [(1, 1, -1), (2, 1, -1), (3, 3, 0)] {
        table.answers(Call::Margin { rule }, &map, &after(Answer::Margin(margin), &map, &[]))?;
        table.answers(Call::Rule { rule, part: 0, index: 0 }, &map, &after(Answer::Part(kind), &map, &[]))?;
    }
    table.answers(Call::Check, &map, &after(Answer::Accepted { atoms: 2, rules: 3 }, &map, &[]))?;
    table.answers(Call::Margin { rule: 4 }, &map, &refused(13, 0, &map))?;
    table.answers(Call::Rule { rule: 4, part: 0, index: 0 }, &map, &refused(13, 0, &map))
}

/// Every part of the weight case's rules.
fn rule_parts(desk: &Desk) -> Result<(), Disagreement> {
    let sheet = Sheet { atoms: 4, rules: weight_case(), ..Sheet::default() }.bytes();
    let table = Table { desk, sheet: &sheet };
    let nothing = None;
    let cases: [(u64, u64, u64, Option<u64>); 30] = [
        (1, 0, 0, Some(3)),
        (1, 1, 0, Some(0)),
        (1, 2, 0, Some(3)),
        (1, 3, 0, Some(2)),
        (1, 3, 2, Some(4)),
        (1, 3, 3, nothing),
        (1, 4, 0, Some(0)),
        (1, 5, 0, nothing),
        (1, 6, 0, nothing),
        (1, 7, 9, Some(0)),
        (1, 8, 0, nothing),
        (1, 9, 0, nothing),
        (2, 0, 0, Some(5)),
        (2, 1, 7, Some(6)),
        (2, 2, 0, Some(1)),
        (2, 3, 0, Some(1)),
        (2, 3, 1, nothing),
        (2, 4, 0, Some(2)),
        (2, 5, 0, Some(2)),
        (2, 5, 1, Some(3)),
        (2, 5, 2, nothing),
        (2, 6, 0, Some(3)),
        (2, 6, 1, Some(4)),
        (2, 7, 0, Some(1)),
        (2, 8, 0, Some(4)),
        (2, 8, 1, nothing),
        (2, 9, 0, Some(2)),
        (2, 9, 1, nothing),
        (2, 10, 0, nothing),
        (2, u64::MAX, u64::MAX, nothing),
    ];
    for (rule, part, index, value) in cases {
        let answer = value.map_or(Answer::NothingThere, Answer::Part);
        table.answers(Call::Rule { rule, part, index }, &[], &after(answer, &[], &[]))?;
    }
    Ok(())
}

fn refused(number: u8, place: usize, map: &[u8]) -> After {
    after(Answer::Refused(Refusal { number, place }), map, &[])
}

fn after(answer: Answer, map: &[u8], past: &[u8]) -> After {
    After { code: answer.code(), map: [map, past].concat() }
}

/// The answer of open or pin that leaves this map.
fn closed(map: &[u8]) -> Answer {
    if map.first() == Some(&3) {
        Answer::Contradiction
    } else {
        Answer::Closed { undecided: map.iter().filter(|&&side| side == 0).count() }
    }
}
