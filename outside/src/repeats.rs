//! Sheets with repeated rules, and with near-repeats: rules that differ from
//! another in one thing only.

use crate::draw::Draw;
use crate::generator::{self, Size, Style, filled};
use crate::sheet::{Kind, Literal, MOST_ATOMS, MOST_NUMBER, MOST_WEIGHT, Rule, Sheet, choice};
use std::iter;

/// The one thing in which two rules differ.
#[derive(Clone, Copy, Debug, PartialEq, Eq, PartialOrd, Ord)]
pub enum Near {
    /// The weight of one literal.
    Weight,
    /// The kind; head, need, body and weights are equal.
    Kind,
    /// One head: another one, one more or one less.
    Head,
    /// The need.
    Need,
    /// One atom of the body: another one, one more or one less.
    Atom,
    /// The sign of one atom of the body.
    Sign,
}

impl Near {
    pub const ALL: [Near; 6] = [Near::Weight, Near::Kind, Near::Head, Near::Need, Near::Atom, Near::Sign];

    /// The one thing in which two rules differ, if there is just one.
    pub fn between(one: &Rule, other: &Rule) -> Option<Near> {
        match differences(one, other)[..] {
            [near] => Some(near),
            _ => None,
        }
    }
}

/// Everything in which two rules differ, as often as they do.
fn differences(one: &Rule, other: &Rule) -> Vec<Near> {
    let mut found = Vec::new();
    found.extend((one.kind != other.kind).then_some(Near::Kind));
    found.extend((one.need != other.need).then_some(Near::Need));
    let (lost, new) = apart(&one.heads, &other.heads);
    found.extend(iter::repeat_n(Near::Head, lost.len().max(new.len())));
    match apart(&body(one), &body(other)) {
        (lost, new) if lost.len() == 1 && new.len() == 1 => {
            let ((old_sign, old), (new_sign, new)) = (lost[0], new[0]);
            found.extend((old_sign != new_sign).then_some(Near::Sign));
            found.extend((old.atom != new.atom).then_some(Near::Atom));
            found.extend((old.weight != new.weight).then_some(Near::Weight));
        }
        (lost, new) => found.extend(iter::repeat_n(Near::Atom, lost.len().max(new.len()))),
    }
    found
}

/// What the second list lacks of the first, and the first of the second.
fn apart<T: Copy + PartialEq>(one: &[T], other: &[T]) -> (Vec<T>, Vec<T>) {
    let lacking = |from: &[T], all: &[T]| all.iter().copied().filter(|item| !from.contains(item)).collect();
    (lacking(other, one), lacking(one, other))
}

/// A literal with its sign, which is true where it is negated.
type Signed = (bool, Literal);

fn body(rule: &Rule) -> Vec<Signed> {
    let positive = rule.positive.iter().map(|&literal| (false, literal));
    positive.chain(rule.negative.iter().map(|&literal| (true, literal))).collect()
}

/// The rule with another body, if the body's weights reach the need.
fn with_body(rule: &Rule, mut body: Vec<Signed>) -> Option<Rule> {
    body.sort_unstable();
    let part = |negated| body.iter().filter(|signed| signed.0 == negated).map(|signed| signed.1).collect();
    let near = Rule { positive: part(false), negative: part(true), ..rule.clone() };
    (near.need <= near.sum()).then_some(near)
}

fn is_bounded(rule: &Rule) -> bool {
    matches!(rule.kind, Kind::Constraint | Kind::Weight)
}

/// A rule that differs from this one in this thing only, if one is found. It
/// can stand on a sheet of so many atoms.
pub fn near_repeat(draw: &mut Draw, rule: &Rule, atoms: usize, near: Near) -> Option<Rule> {
    match near {
        Near::Weight => with_other_weight(draw, rule),
        Near::Kind => with_other_kind(draw, rule),
        Near::Head => with_other_head(draw, rule, atoms),
        Near::Need => with_other_need(draw, rule),
        Near::Atom => with_other_atom(draw, rule, atoms),
        Near::Sign => with_other_literal(draw, rule, |(sign, old)| vec![(!sign, old)]),
    }
}

/// The rule with one literal, often the last, exchanged for one of the others
/// that can stand there.
fn with_other_literal(draw: &mut Draw, rule: &Rule, others: impl Fn(Signed) -> Vec<Signed>) -> Option<Rule> {
    let mut body = body(rule);
    let last = body.len().checked_sub(1)?;
    let old = body.remove(if draw.chance(1, 2) { last } else { draw.between(0, last) });
    with_literal(draw, rule, body, others(old))
}

/// The rule with this body and one of the literals that are not there yet.
fn with_literal(draw: &mut Draw, rule: &Rule, mut body: Vec<Signed>, others: Vec<Signed>) -> Option<Rule> {
    let stands = |&(sign, new): &Signed| body.iter().any(|&(other, one)| other == sign && one.atom == new.atom);
    let others = others.into_iter().filter(|new| !stands(new)).collect::<Vec<_>>();
    if others.is_empty() {
        return None;
    }
    body.push(draw.pick(&others));
    with_body(rule, body)
}

fn with_other_weight(draw: &mut Draw, rule: &Rule) -> Option<Rule> {
    let others = |(sign, old): Signed| {
        let weights = [old.weight.saturating_sub(1), old.weight + 1, 0, 127, 128, MOST_WEIGHT].into_iter();
        let others = weights.filter(|&weight| weight <= MOST_WEIGHT && weight != old.weight);
        others.map(|weight| (sign, Literal { weight, ..old })).collect()
    };
    if rule.kind == Kind::Weight { with_other_literal(draw, rule, others) } else { None }
}

/// Another atom in the place of one. Where the need does not follow from the
/// body's length, it may also be one atom more or one less.
fn with_other_atom(draw: &mut Draw, rule: &Rule, atoms: usize) -> Option<Rule> {
    let all = |sign: bool, weight: u32| (1..=atoms).map(|atom| (sign, Literal { atom, weight })).collect();
    match draw.below(4) {
        0 if is_bounded(rule) => {
            let sign = draw.chance(1, 2);
            with_literal(draw, rule, body(rule), all(sign, 1))
        }
        1 if is_bounded(rule) && rule.length() > 0 => {
            let mut body = body(rule);
            body.remove(draw.below(body.len()));
            with_body(rule, body)
        }
        _ => with_other_literal(draw, rule, |(sign, old)| {
            let mut others: Vec<Signed> = all(sign, old.weight);
            others.retain(|other| other.1.atom != old.atom);
            others
        }),
    }
}

/// The same head, need, body and weights in another kind.
fn with_other_kind(draw: &mut Draw, rule: &Rule) -> Option<Rule> {
    let can_say = |kind: Kind| match kind {
        Kind::Basic | Kind::Choice => rule.need == rule.length() as u32,
        Kind::Constraint | Kind::Weight => true,
    };
    let are_ones = body(rule).iter().all(|signed| signed.1.weight == 1);
    let others = Kind::ALL.into_iter().filter(|&kind| kind != rule.kind && can_say(kind)).collect::<Vec<_>>();
    (are_ones && rule.heads.len() == 1).then(|| Rule { kind: draw.pick(&others), ..rule.clone() })
}

/// Another head in the place of one. A choice may also have one head more or
/// one less.
fn with_other_head(draw: &mut Draw, rule: &Rule, atoms: usize) -> Option<Rule> {
    let others = (1..=atoms).filter(|atom| !rule.heads.contains(atom)).collect::<Vec<_>>();
    let is_less = rule.heads.len() > 1 && draw.chance(1, 3);
    let is_more = rule.is_choice() && !is_less && draw.chance(1, 2);
    if others.is_empty() && !is_less {
        return None;
    }
    let mut heads = rule.heads.clone();
    if !is_more {
        heads.remove(draw.below(heads.len()));
    }
    if !is_less {
        heads.push(draw.pick(&others));
    }
    heads.sort_unstable();
    Some(Rule { heads, ..rule.clone() })
}

/// Another bound that the weights reach.
fn with_other_need(draw: &mut Draw, rule: &Rule) -> Option<Rule> {
    let most = rule.sum().min(MOST_NUMBER);
    let needs = [rule.need.saturating_sub(1), rule.need + 1, 0, most].into_iter();
    let others = needs.filter(|&need| need <= most && need != rule.need).collect::<Vec<_>>();
    (is_bounded(rule) && !others.is_empty()).then(|| Rule { need: draw.pick(&others), ..rule.clone() })
}

/// A rule of up to so many literals of each sign can be called long.
const LONG: usize = 20;

/// A sheet with few different rules, near-repeats of them, and any of these
/// any number of times anywhere among the others. It has up to the given
/// size, or else long rules, which have a long part in common with their
/// near-repeats.
pub fn sheet(draw: &mut Draw, size: Size) -> Sheet {
    let atoms = draw.between(1, size.atoms);
    let sheet = match draw.below(4) {
        0 => {
            let sheet = generator::sheet(draw, size);
            with_near_repeats(draw, sheet)
        }
        1 => asking_sheet(draw, atoms.max(LONG), atoms.max(LONG)),
        _ => asking_sheet(draw, atoms, size.body),
    };
    if draw.chance(1, 2) { same_rules(draw, &sheet) } else { sheet }
}

/// The same at a limit: of rules, if they are short, or else of bytes.
pub fn large_sheet(draw: &mut Draw) -> Sheet {
    let atoms = draw.pick(&[MOST_ATOMS, MOST_ATOMS / 4]);
    let body = draw.pick(&[2, 30, atoms]);
    let sheet = asking_sheet(draw, atoms, body);
    let first = if draw.chance(1, 2) { 0 } else { sheet.rules.len() - 1 };
    let rules = sheet.rules[first..].to_vec();
    filled(sheet, iter::repeat_with(|| rules[draw.below(rules.len())].clone()))
}

/// The sheet with up to three near-repeats of its rules, or of near-repeats.
fn with_near_repeats(draw: &mut Draw, mut sheet: Sheet) -> Sheet {
    for _ in 0..draw.between(0, 3) {
        let near = draw.pick(&Near::ALL);
        let mut rules = sheet.rules.iter().collect::<Vec<_>>();
        draw.shuffle(&mut rules);
        let found = rules.into_iter().find_map(|rule| near_repeat(draw, rule, sheet.atoms, near));
        sheet = filled(sheet, found);
    }
    sheet
}

/// A sheet whose first atoms are free, by its first rule. Each of the others
/// is given by a rule and perhaps by near-repeats of it, over the free atoms
/// mostly, and may be asked for.
fn asking_sheet(draw: &mut Draw, atoms: usize, body: usize) -> Sheet {
    let given = draw.between(1, atoms.div_ceil(2).min(4));
    let free = (atoms - given).max(1);
    let over = if draw.chance(3, 4) { free } else { atoms };
    let mut style = Style::drawn(draw);
    style.free = true;
    let mut sheet = Sheet { atoms, rules: vec![choice(&(1..=free).collect::<Vec<_>>(), &[], &[])], ..Sheet::default() };
    for atom in atoms - given + 1..=atoms {
        let reason = |draw: &mut Draw| {
            let rule = generator::rule(draw, over, body, style);
            let more = (atom + 1..=atoms).filter(|_| rule.is_choice() && draw.chance(1, 2));
            Rule { heads: [atom].into_iter().chain(more).collect(), ..rule }
        };
        sheet.compute_in.extend(draw.chance(1, 2).then_some(atom));
        let reasons = near_reasons(draw, atoms, reason);
        sheet = filled(sheet, reasons);
    }
    sheet
}

/// One of these rules, and up to two near-repeats of it that differ from it
/// in the same way.
fn near_reasons(draw: &mut Draw, atoms: usize, reason: impl Fn(&mut Draw) -> Rule) -> Vec<Rule> {
    let count = draw.pick(&[0, 0, 1, 1, 2]);
    let near = draw.pick(&Near::ALL);
    for _ in 0..20 {
        let rule = reason(draw);
        let nears = (0..count).filter_map(|_| near_repeat(draw, &rule, atoms, near)).collect::<Vec<_>>();
        let shares = nears.iter().all(|near| near.heads.contains(&rule.heads[0]));
        if nears.len() == count && (shares || draw.chance(1, 8)) {
            return [vec![rule], nears].concat();
        }
    }
    vec![reason(draw)]
}

/// The sheet with its rules in any order, each of them once or more often.
pub fn same_rules(draw: &mut Draw, sheet: &Sheet) -> Sheet {
    let once = Sheet { rules: different(&sheet.rules), ..sheet.clone() };
    let count = once.rules.len();
    let mut more = Vec::new();
    if count > 0 {
        let most = draw.pick(&[0, 1, count, 3 * count]);
        more.extend((0..draw.between(0, most)).map(|_| once.rules[draw.below(count)].clone()));
        let often = draw.pick(&[0, 0, 0, 0, 0, 40]);
        more.extend(iter::repeat_n(once.rules[draw.below(count)].clone(), often));
    }
    let mut other = filled(once, more);
    draw.shuffle(&mut other.rules);
    other
}

/// Each of the rules once, in the order in which they first stand.
pub fn different(rules: &[Rule]) -> Vec<Rule> {
    let mut different = Vec::new();
    for rule in rules {
        if !different.contains(rule) {
            different.push(rule.clone());
        }
    }
    different
}

#[cfg(test)]
mod tests {
    use super::*;
    use crate::plain::reader::read_sheet;
    use crate::sheet::{MOST_BYTES, MOST_RULES, basic, bytes_of, constraint, weight};
    use std::collections::{BTreeMap, BTreeSet};

    #[test]
    fn one_difference_is_told_from_none_and_from_two() {
        let rule = weight(1, 1, &[(2, 1)], &[(3, 2)]);
        let others = [
            (rule.clone(), None),
            (weight(1, 1, &[(2, 1)], &[(3, 3)]), Some(Near::Weight)),
            (weight(2, 1, &[(2, 1)], &[(3, 2)]), Some(Near::Head)),
            (weight(1, 2, &[(2, 1)], &[(3, 2)]), Some(Near::Need)),
            (weight(1, 1, &[(3, 1)], &[(3, 2)]), Some(Near::Atom)),
            (weight(1, 1, &[(2, 1), (3, 1)], &[(3, 2)]), Some(Near::Atom)),
            (weight(1, 1, &[(2, 1)], &[]), Some(Near::Atom)),
            (weight(1, 1, &[(2, 1), (3, 2)], &[]), Some(Near::Sign)),
            (weight(1, 1, &[(3, 1)], &[(2, 2)]), None),
            (weight(1, 1, &[(3, 2)], &[(3, 2)]), None),
            (weight(2, 2, &[(2, 1)], &[(3, 2)]), None),
        ];
        for (other, near) in others {
            assert_eq!(Near::between(&rule, &other), near, "{other}");
        }
        let (one, two, three) = (choice(&[1], &[], &[]), choice(&[1, 2], &[], &[]), choice(&[1, 2, 3], &[], &[]));
        assert_eq!(Near::between(&one, &two), Some(Near::Head));
        assert_eq!(Near::between(&three, &one), None);
        assert_eq!(Near::between(&one, &basic(1, &[], &[])), Some(Near::Kind));
        assert_eq!(Near::between(&basic(1, &[2], &[]), &constraint(1, 0, &[2], &[])), None);
    }

    #[test]
    fn near_repeats_of_every_kind_of_rule_differ_in_what_they_should() {
        let mut met = BTreeMap::new();
        for seed in 0..4000 {
            let mut draw = Draw::new("near", seed);
            let style = Style::drawn(&mut draw);
            let rule = generator::rule(&mut draw, 6, 3, style);
            for near in Near::ALL {
                if let Some(other) = near_repeat(&mut draw, &rule, 6, near) {
                    assert_eq!(Near::between(&rule, &other), Some(near), "{rule}; {other}");
                    let sheet = Sheet { atoms: 6, rules: vec![other], ..Sheet::default() };
                    assert_eq!(read_sheet(&sheet.bytes()), Ok(sheet), "seed {seed}");
                    *met.entry((near, rule.kind)).or_insert(0) += 1;
                }
            }
        }
        // Only a weight rule has weights, and only a bound a need of its own.
        assert_eq!(met.len(), 1 + 4 + 4 + 2 + 4 + 4, "{met:?}");
        assert!(met.values().all(|&times| times >= 20), "{met:?}");
    }

    #[test]
    fn sheets_with_repeats_are_accepted_and_so_are_those_with_the_same_rules() {
        for seed in 0..3000 {
            let mut draw = Draw::new("repeats", seed);
            let size = generator::size(&mut draw);
            let sheet = if seed % 50 == 0 { large_sheet(&mut draw) } else { sheet(&mut draw, size) };
            let other = same_rules(&mut draw, &sheet);
            for rule in sheet.rules.iter().chain(&other.rules) {
                assert!(sheet.rules.contains(rule) && other.rules.contains(rule), "seed {seed}");
            }
            assert_eq!(read_sheet(&sheet.bytes()), Ok(sheet), "seed {seed}");
            assert_eq!(read_sheet(&other.bytes()), Ok(other), "seed {seed}");
        }
    }

    #[test]
    fn large_sheets_touch_both_limits() {
        let mut met = BTreeSet::new();
        for seed in 0..60 {
            let sheet = large_sheet(&mut Draw::new("large", seed));
            let longest = sheet.rules.iter().map(|rule| bytes_of(&rule.numbers()).len()).max();
            let is_long = sheet.bytes().len() + longest.expect("a rule") + 3 > MOST_BYTES;
            assert!(is_long || sheet.rules.len() == MOST_RULES, "seed {seed}");
            met.insert((is_long, sheet.rules.len() == MOST_RULES));
        }
        assert!(met.contains(&(true, false)) && met.contains(&(false, true)), "{met:?}");
    }
}
