//! Seeded sheets, well formed and damaged, and maps and numbers for the
//! calls on them.

use crate::draw::Draw;
use crate::sheet::{
    Kind, Literal, MOST_ATOMS, MOST_BYTES, MOST_NUMBER, MOST_RULES, MOST_WEIGHT, Rule, Sheet, basic, bytes_of, choice,
    constraint, number_bytes, weight as weight_rule,
};
use std::iter;

/// Upper ends for a sheet: atoms, rules, and the usual body length.
#[derive(Clone, Copy, Debug)]
pub struct Size {
    pub atoms: usize,
    pub rules: usize,
    pub body: usize,
}

/// The sizes that tests draw from, small ones most often.
pub fn size(draw: &mut Draw) -> Size {
    match draw.below(20) {
        0..=9 => Size { atoms: 5, rules: 8, body: 3 },
        10..=16 => Size { atoms: 12, rules: 24, body: 3 },
        17..=18 => Size { atoms: 40, rules: 90, body: 4 },
        _ => Size { atoms: 130, rules: 200, body: 5 },
    }
}

/// A well-formed sheet of every kind of rule, up to the given size and
/// within all limits.
pub fn sheet(draw: &mut Draw, size: Size) -> Sheet {
    let atoms = draw.between(0, size.atoms);
    let count = if atoms == 0 { 0 } else { draw.between(0, size.rules) };
    let style = Style::drawn(draw);
    let mut rules = Vec::with_capacity(count);
    for _ in 0..count {
        rules.push(rule(draw, atoms, size.body, style));
    }
    if style.free && count > 0 {
        rules[0] = free_atoms(draw, atoms);
    }
    repeat_some(draw, &mut rules);
    Sheet { atoms, rules, compute_in: compute_list(draw, atoms), compute_out: compute_list(draw, atoms) }
}

/// A sheet near the limits: up to 512 atoms, 2,048 rules and 65,536 bytes.
/// Most of its atoms are free or forced, so that a search ends soon.
pub fn large_sheet(draw: &mut Draw) -> Sheet {
    let atoms = draw.pick(&[MOST_ATOMS, MOST_ATOMS, 511, 400, 300, 129]);
    let most_rules = draw.pick(&[MOST_RULES, 2047, 1500, 700]);
    let body = draw.pick(&[1, 3, 8, 40, atoms]);
    let style = Style::drawn(draw);
    let compute_out = if draw.chance(1, 2) { draw.subset(2, atoms) } else { Vec::new() };
    let rules = iter::repeat_with(|| {
        if draw.chance(3, 4) { rule_upwards(draw, atoms, body) } else { rule(draw, atoms, body, style) }
    });
    filled(Sheet { atoms, compute_out, ..Sheet::default() }, rules.take(most_rules))
}

/// The sheet with further rules, as many of these as it can take within its
/// limits.
pub fn filled(mut sheet: Sheet, rules: impl IntoIterator<Item = Rule>) -> Sheet {
    // Another rule count takes up to three bytes more.
    let mut bytes = sheet.bytes().len() + 3;
    for rule in rules {
        bytes += bytes_of(&rule.numbers()).len();
        if sheet.rules.len() == MOST_RULES || bytes > MOST_BYTES {
            break;
        }
        sheet.rules.push(rule);
    }
    sheet
}

/// A well-formed sheet with exactly this many bytes, which is at least 200
/// and at most 65,536.
pub fn sheet_of_length(draw: &mut Draw, length: usize) -> Sheet {
    let mut sheet = Sheet { atoms: MOST_ATOMS, ..Sheet::default() };
    let all = (1..=MOST_ATOMS).map(|atom| Literal { atom, weight: MOST_WEIGHT }).collect::<Vec<_>>();
    loop {
        let missing = length - sheet.bytes().len();
        if missing < 5200 {
            break;
        }
        let head = draw.between(1, MOST_ATOMS);
        // The weights sum to more than any number that a sheet can say.
        let need = draw.between(0, MOST_NUMBER as usize) as u32;
        sheet.rules.push(Rule {
            kind: Kind::Weight,
            heads: vec![head],
            need,
            positive: all.clone(),
            negative: all.clone(),
        });
    }
    while sheet.bytes().len() < length {
        let missing = length - sheet.bytes().len();
        // Rules of four and of five bytes; 12 and more can be made of both.
        let head = if missing.is_multiple_of(4) { 100 } else { 200 };
        sheet.rules.push(basic(head, &[], &[]));
        assert!(sheet.rules.len() < 2000, "few rules are needed");
    }
    sheet
}

/// A sheet whose atoms, bounds and weights lie about 127, the greatest number
/// that one byte can say.
pub fn about_one_byte(draw: &mut Draw) -> Sheet {
    let atoms = draw.between(126, 131);
    let list = |draw: &mut Draw| {
        let mut list = draw.subset(2, 3);
        list.extend((124..=atoms).filter(|_| draw.chance(2, 3)));
        list
    };
    let weighed = |draw: &mut Draw| {
        let list = list(draw);
        list.iter().map(|&atom| (atom, draw.pick(&[0, 1, 126, 127, 128, 129, 16_384]))).collect::<Vec<_>>()
    };
    let head = |draw: &mut Draw| draw.between(125, atoms);
    // A constraint rule has at least as many literals as its bound says.
    let counted = if draw.chance(1, 3) { (1..=atoms).collect() } else { list(draw) };
    let counted = constraint(head(draw), 0, &counted, &list(draw));
    let weighed = weight_rule(head(draw), 0, &weighed(draw), &weighed(draw));
    let rules = vec![
        choice(&list(draw), &list(draw), &[]),
        basic(head(draw), &list(draw), &list(draw)),
        bounded_about_one_byte(draw, counted),
        bounded_about_one_byte(draw, weighed),
    ];
    Sheet { atoms, rules, compute_in: Vec::new(), compute_out: list(draw) }
}

/// The rule with a bound that its weights reach: about 127, 0, or their sum.
fn bounded_about_one_byte(draw: &mut Draw, rule: Rule) -> Rule {
    let sum = rule.sum();
    let reached = [0, sum, 126, 127, 128, 129].into_iter().filter(|&bound| bound <= sum).collect::<Vec<_>>();
    Rule { need: draw.pick(&reached), ..rule }
}

/// How a sheet's numbers are drawn.
#[derive(Clone, Copy)]
pub struct Style {
    most_weight: u32,
    kinds: [Kind; 4],
    /// Whether the first rule leaves some atoms free and other bodies are
    /// not empty, so that less is decided at once.
    pub free: bool,
}

impl Style {
    pub fn drawn(draw: &mut Draw) -> Style {
        let most_weight = draw.pick(&[1, 2, 4, 4, 9, MOST_WEIGHT]);
        let kinds = if draw.chance(1, 4) { [Kind::Basic, Kind::Basic, Kind::Basic, Kind::Choice] } else { Kind::ALL };
        Style { most_weight, kinds, free: draw.chance(2, 3) }
    }
}

fn free_atoms(draw: &mut Draw, atoms: usize) -> Rule {
    let count = draw.between(1, atoms);
    choice(&draw.subset(count, atoms), &[], &[])
}

/// A rule over so many atoms, with a body of up to so many literals of each
/// sign.
pub fn rule(draw: &mut Draw, atoms: usize, body: usize, style: Style) -> Rule {
    let kind = draw.pick(&style.kinds);
    let heads = match kind {
        Kind::Choice => {
            let most = if draw.chance(1, 8) { atoms } else { atoms.min(4) };
            let count = draw.between(1, most);
            draw.subset(count, atoms)
        }
        Kind::Basic | Kind::Constraint | Kind::Weight => vec![draw.between(1, atoms)],
    };
    let positive = literals(draw, 0, atoms, body, kind, style);
    let least = usize::from(style.free && positive.is_empty());
    let negative = literals(draw, least, atoms, body, kind, style);
    let rule = Rule { kind, heads, need: 0, positive, negative };
    Rule { need: need(draw, &rule), ..rule }
}

/// A rule whose head is above its body, which cannot close a loop.
fn rule_upwards(draw: &mut Draw, atoms: usize, body: usize) -> Rule {
    let head = draw.between(1, atoms);
    let count = draw.between(0, body.min(head - 1));
    let mut picked = draw.subset(count, head - 1);
    let split = draw.between(0, count);
    draw.shuffle(&mut picked);
    let (positive, negative) = picked.split_at(split);
    let sorted = |part: &[usize]| {
        let mut part = part.to_vec();
        part.sort_unstable();
        part
    };
    let rule = basic(head, &sorted(positive), &sorted(negative));
    if draw.chance(1, 3) { Rule { kind: Kind::Choice, ..rule } } else { rule }
}

fn literals(draw: &mut Draw, least: usize, atoms: usize, body: usize, kind: Kind, style: Style) -> Vec<Literal> {
    let most = if draw.chance(1, 30) { atoms } else { body.min(atoms) };
    let count = draw.between(least, most);
    let atoms = draw.subset(count, atoms);
    atoms.into_iter().map(|atom| Literal { atom, weight: weight(draw, kind, style) }).collect()
}

fn weight(draw: &mut Draw, kind: Kind, style: Style) -> u32 {
    match kind {
        Kind::Weight if draw.chance(1, 40) => draw.pick(&[0, 127, 128, 16_384, MOST_WEIGHT]),
        Kind::Weight => draw.between(0, style.most_weight as usize) as u32,
        Kind::Basic | Kind::Constraint | Kind::Choice => 1,
    }
}

/// A need that the body can reach; often its whole weight.
fn need(draw: &mut Draw, rule: &Rule) -> u32 {
    let most = rule.sum().min(MOST_NUMBER);
    match rule.kind {
        Kind::Basic | Kind::Choice => rule.length() as u32,
        Kind::Constraint | Kind::Weight => match draw.below(30) {
            0..=1 => 0,
            2..=7 => most,
            _ => draw.between(most.min(1) as usize, most as usize) as u32,
        },
    }
}

/// In every other sheet some rules stand twice.
fn repeat_some(draw: &mut Draw, rules: &mut Vec<Rule>) {
    if rules.is_empty() || draw.chance(1, 2) {
        return;
    }
    for _ in 0..draw.between(1, 1 + rules.len() / 3) {
        let again = rules[draw.below(rules.len())].clone();
        let place = draw.between(0, rules.len());
        rules.insert(place, again);
    }
}

fn compute_list(draw: &mut Draw, atoms: usize) -> Vec<usize> {
    let most = match draw.below(12) {
        0 => atoms,
        1..=3 => atoms.min(2),
        _ => 0,
    };
    let count = draw.between(0, most);
    draw.subset(count, atoms)
}

/// A sheet's bytes with one to three damages. Some damaged sheets are still
/// accepted.
pub fn damaged(draw: &mut Draw, sheet: &Sheet) -> Vec<u8> {
    let mut bytes = if draw.chance(2, 5) { with_other_numbers(draw, sheet) } else { sheet.bytes() };
    for _ in 0..draw.pick(&[0, 1, 1, 1, 2, 3]) {
        damage(draw, &mut bytes);
    }
    bytes
}

fn damage(draw: &mut Draw, bytes: &mut Vec<u8>) {
    let place = draw.below(bytes.len().max(1)).min(bytes.len());
    match draw.below(12) {
        0..=2 if !bytes.is_empty() => bytes[place] ^= 1 << draw.below(8),
        3..=4 if !bytes.is_empty() => bytes[place] = draw.byte(),
        5..=6 => bytes.truncate(place),
        7 => bytes.insert(place, draw.byte()),
        8 if !bytes.is_empty() => {
            bytes.remove(place);
        }
        9 => {
            let more = draw.between(1, 4);
            bytes.extend((0..more).map(|_| draw.pick(&[0, 1, 0x80, 0xff])));
        }
        10 if draw.chance(1, 10) => bytes.resize(draw.pick(&[MOST_BYTES, MOST_BYTES + 1, MOST_BYTES + 900]), 0),
        _ => stretch_number(draw, bytes),
    }
}

/// The wrong forms of a number, each with the number of its refusal: padded
/// with empty groups to at most four (2), and more than four groups (15), of
/// which the last is empty or not.
pub fn long_forms(number: u32) -> Vec<(Vec<u8>, u8)> {
    let shortest = number_bytes(number);
    let mut forms = Vec::new();
    for length in shortest.len() + 1..=6 {
        let mut padded = shortest.clone();
        padded.resize(length, 0);
        padded[..length - 1].iter_mut().for_each(|byte| *byte |= 0x80);
        let refusal = if length > 4 { 15 } else { 2 };
        if refusal == 15 {
            let mut full = padded.clone();
            full[length - 1] = 1;
            forms.push((full, refusal));
        }
        forms.push((padded, refusal));
    }
    forms
}

/// Writes one number in a longer form, or with a fifth byte.
fn stretch_number(draw: &mut Draw, bytes: &mut Vec<u8>) {
    let lasts = bytes.iter().enumerate().filter(|(_, byte)| **byte < 0x80).map(|(place, _)| place);
    let lasts = lasts.collect::<Vec<_>>();
    if lasts.is_empty() {
        return;
    }
    let last = draw.pick(&lasts);
    bytes[last] |= 0x80;
    let more = draw.pick(&[
        &[0x00][..],
        &[0x80, 0x00],
        &[0x80, 0x80, 0x00],
        &[0x80, 0x80, 0x80, 0x00],
        &[0x80, 0x80, 0x80, 0x80, 0x01],
        &[0xff, 0xff, 0xff],
        &[0x01],
    ]);
    bytes.splice(last + 1..last + 1, more.iter().copied());
}

/// The sheet's bytes with one number exchanged for another.
fn with_other_numbers(draw: &mut Draw, sheet: &Sheet) -> Vec<u8> {
    let mut numbers = sheet.numbers();
    let place = if draw.chance(1, 3) { draw.below(numbers.len().min(9)) } else { draw.below(numbers.len()) };
    let old = numbers[place];
    let atoms = sheet.atoms as u32;
    let near = [old.wrapping_sub(1) & MOST_NUMBER, old + 1, 0, 1, 4, 6, atoms, atoms + 1, 512, 513];
    let far = [2048, 2049, MOST_WEIGHT, MOST_WEIGHT + 1, 16_383, 16_384, 2_097_152, MOST_NUMBER, 65_536 + atoms];
    numbers[place] = if draw.chance(3, 4) { draw.pick(&near) } else { draw.pick(&far) };
    bytes_of(&numbers)
}

/// A lent map for a sheet with this many atoms: short, long or fitting, with
/// bytes that are allowed, that break a rule, or any.
pub fn map(draw: &mut Draw, atoms: usize) -> Vec<u8> {
    let length = match draw.below(12) {
        0 => draw.between(0, atoms),
        1 => atoms.saturating_sub(1),
        2..=4 => atoms + draw.between(1, 9),
        5 if draw.chance(1, 10) => atoms + 600,
        _ => atoms,
    };
    let mut bytes = (0..length).map(|_| draw.byte()).collect::<Vec<_>>();
    let shown = length.min(atoms);
    fill(draw, &mut bytes[..shown]);
    bytes
}

fn fill(draw: &mut Draw, bytes: &mut [u8]) {
    match draw.below(16) {
        0..=3 => bytes.fill(0),
        4..=6 => bytes.fill_with(|| draw.pick(&[0, 0, 0, 1, 2])),
        7 => bytes.fill_with(|| draw.pick(&[0, 1, 2])),
        8..=10 => bytes.fill_with(|| draw.pick(&[1, 2, 2])),
        11..=12 => bytes.fill(3),
        13..=14 => fill_but_one(draw, bytes),
        _ => bytes.fill_with(|| draw.byte()),
    }
}

/// Bytes that keep a rule but for one of them.
fn fill_but_one(draw: &mut Draw, bytes: &mut [u8]) {
    if bytes.is_empty() {
        return;
    }
    if draw.chance(1, 2) {
        bytes.fill(3);
    } else {
        bytes.fill_with(|| draw.pick(&[0, 1, 2]));
    }
    let place = draw.below(bytes.len());
    bytes[place] = draw.pick(&[0, 1, 2, 3, 4, 5, 255]);
}

/// An atom, rule or index number: mostly from 0 to one above `most`, and now
/// and then one that looks small when its top is cut off.
pub fn number(draw: &mut Draw, most: usize) -> u64 {
    let most = most as u64;
    let near = draw.any() % (most + 2);
    let any = draw.any();
    match draw.below(12) {
        0 => draw.pick(&[0, most, most + 1, 512, 513, 2048, 2049]),
        1 => draw.pick(&[1 << 8, 1 << 16, 1 << 32, 1 << 40, 1 << 63]) + near,
        2 => draw.pick(&[u64::MAX, any, u64::from(u32::MAX)]),
        _ => near,
    }
}

/// An atom to pin: mostly one of the sheet's.
pub fn atom(draw: &mut Draw, atoms: usize) -> u64 {
    if atoms > 0 && draw.chance(5, 6) { draw.between(1, atoms) as u64 } else { number(draw, atoms) }
}

/// A side to pin: mostly 1 or 2.
pub fn side(draw: &mut Draw) -> u64 {
    if draw.chance(7, 8) { draw.pick(&[1, 2]) } else { number(draw, 3) }
}

/// Any bytes, with a start that gets a reader past the first numbers.
pub fn any_bytes(draw: &mut Draw) -> Vec<u8> {
    let length = draw.between(0, 24);
    let most = draw.pick(&[3, 6, 130, 255]);
    let mut bytes = (0..length).map(|_| draw.between(0, most) as u8).collect::<Vec<_>>();
    if draw.chance(4, 5) {
        let start = [number_bytes(1), number_bytes(draw.between(0, 5) as u32), number_bytes(draw.between(0, 3) as u32)];
        bytes.splice(0..0, start.concat());
    }
    bytes
}

#[cfg(test)]
mod tests {
    use super::*;
    use crate::answer::SHEET_REFUSALS;
    use crate::plain::reader::read_sheet;
    use std::collections::BTreeSet;

    #[test]
    fn drawn_sheets_are_accepted_and_read_back() {
        for seed in 0..2000 {
            let mut draw = Draw::new("read back", seed);
            let size = size(&mut draw);
            let sheet = sheet(&mut draw, size);
            assert_eq!(read_sheet(&sheet.bytes()), Ok(sheet), "seed {seed}");
        }
    }

    #[test]
    fn large_sheets_are_accepted_and_some_touch_the_limits() {
        let mut full = 0;
        for seed in 0..40 {
            let sheet = large_sheet(&mut Draw::new("large", seed));
            let bytes = sheet.bytes();
            full += usize::from(bytes.len() > MOST_BYTES - 3000 || sheet.rules.len() == MOST_RULES);
            assert_eq!(read_sheet(&bytes), Ok(sheet), "seed {seed}");
        }
        assert!(full > 5, "{full} full sheets");
    }

    #[test]
    fn a_sheet_of_any_length_can_be_had() {
        for length in [200, 201, 202, 203, 5000, 5203, 9999, MOST_BYTES - 1, MOST_BYTES] {
            let sheet = sheet_of_length(&mut Draw::new("length", 0), length);
            assert_eq!(sheet.bytes().len(), length);
            assert_eq!(read_sheet(&sheet.bytes()), Ok(sheet));
        }
    }

    #[test]
    fn sheets_about_one_byte_are_accepted_and_some_bounds_are_about_127() {
        let mut met = BTreeSet::new();
        for seed in 0..200 {
            let sheet = about_one_byte(&mut Draw::new("about", seed));
            met.extend(sheet.rules[2..].iter().map(|rule| (rule.kind as u32, rule.need)));
            assert_eq!(read_sheet(&sheet.bytes()), Ok(sheet), "seed {seed}");
        }
        for need in 126..=129 {
            assert!(met.contains(&(2, need)) && met.contains(&(5, need)), "{need}");
        }
    }

    #[test]
    fn one_in_eight_damaged_sheets_is_accepted() {
        let is_accepted = |seed: &u64| {
            let mut draw = Draw::new("damaged", *seed);
            let size = size(&mut draw);
            let sheet = sheet(&mut draw, size);
            read_sheet(&damaged(&mut draw, &sheet)).is_ok()
        };
        let accepted = (0..10_000).filter(is_accepted).count();
        assert!(accepted > 1250, "{accepted} of 10,000");
    }

    #[test]
    fn long_forms_are_padded_or_longer_than_four_bytes() {
        let forms: [(&[u8], u8); 7] = [
            (&[0x85, 0x00], 2),
            (&[0x85, 0x80, 0x00], 2),
            (&[0x85, 0x80, 0x80, 0x00], 2),
            (&[0x85, 0x80, 0x80, 0x80, 0x01], 15),
            (&[0x85, 0x80, 0x80, 0x80, 0x00], 15),
            (&[0x85, 0x80, 0x80, 0x80, 0x80, 0x01], 15),
            (&[0x85, 0x80, 0x80, 0x80, 0x80, 0x00], 15),
        ];
        assert_eq!(long_forms(5), forms.map(|(bytes, number)| (bytes.to_vec(), number)));
    }

    #[test]
    fn every_refusal_of_a_sheet_is_met_by_damage() {
        let mut met = BTreeSet::new();
        for seed in 0..20_000 {
            let mut draw = Draw::new("damage", seed);
            let sheet = sheet(&mut draw, Size { atoms: 5, rules: 6, body: 3 });
            if let Err(refusal) = read_sheet(&damaged(&mut draw, &sheet)) {
                met.insert(refusal.number);
            }
        }
        assert_eq!(met, BTreeSet::from(SHEET_REFUSALS));
    }
}
