//! The paper's definitions taken by the letter, over all subsets and all
//! maps. Only for small sheets. Nothing here is shared with the plain
//! solver but the record of a sheet.

use crate::sheet::{Kind, Rule, Sheet};

/// A set of atoms: bit `atom - 1` says whether the atom is in it.
pub type Set = u32;

/// The most atoms for which all subsets are looked at.
pub const MOST_ATOMS_FOR_SUBSETS: usize = 12;
/// The most atoms for which all maps are looked at.
pub const MOST_ATOMS_FOR_MAPS: usize = 5;

fn has(set: Set, atom: usize) -> bool {
    set & (1 << (atom - 1)) != 0
}

fn is_subset(part: Set, whole: Set) -> bool {
    part & !whole == 0
}

/// All subsets of the sheet's atoms in the order of models: at the lowest
/// atom where two differ, the one that has it comes first.
pub fn subsets_in_order(atoms: usize) -> impl Iterator<Item = Set> {
    let count = 1u32 << atoms;
    (0..count).map(move |rank| {
        let mut set = 0;
        for index in 0..atoms {
            let lacks = rank & (1 << (atoms - 1 - index)) != 0;
            if !lacks {
                set |= 1 << index;
            }
        }
        set
    })
}

/// "The weights of positive atoms in C plus the weights of negated atoms not
/// in S reach the need."
fn body_holds(rule: &Rule, s: Set, c: Set) -> bool {
    let mut weight = 0u64;
    for literal in &rule.positive {
        if has(c, literal.atom) {
            weight += u64::from(literal.weight);
        }
    }
    for literal in &rule.negative {
        if !has(s, literal.atom) {
            weight += u64::from(literal.weight);
        }
    }
    weight >= u64::from(rule.need)
}

/// What the rules give from C for the candidate S.
pub fn given(sheet: &Sheet, s: Set, c: Set) -> Set {
    let mut set = 0;
    for rule in &sheet.rules {
        if body_holds(rule, s, c) {
            for &head in &rule.heads {
                if rule.kind != Kind::Choice || has(s, head) {
                    set |= 1 << (head - 1);
                }
            }
        }
    }
    set
}

/// The smallest C that contains everything the rules give from it, grown
/// from nothing.
pub fn smallest(sheet: &Sheet, s: Set) -> Set {
    let mut c = 0;
    loop {
        let next = given(sheet, s, c);
        if is_subset(next, c) {
            return c;
        }
        c |= next;
    }
}

/// The same set as [`smallest`], as the common part of all sets that
/// contain everything the rules give from them.
pub fn smallest_by_all_sets(sheet: &Sheet, s: Set) -> Set {
    let all = subsets_in_order(sheet.atoms);
    all.filter(|&c| is_subset(given(sheet, s, c), c)).fold(Set::MAX, |common, c| common & c)
}

/// Whether S is stable and agrees with the sheet.
pub fn is_agreeing_model(sheet: &Sheet, s: Set) -> bool {
    smallest(sheet, s) == s
        && sheet.compute_in.iter().all(|&atom| has(s, atom))
        && !sheet.compute_out.iter().any(|&atom| has(s, atom))
}

/// All agreeing stable models in order.
pub fn models(sheet: &Sheet) -> Vec<Set> {
    subsets_in_order(sheet.atoms).filter(|&s| is_agreeing_model(sheet, s)).collect()
}

/// The decided map of a set.
pub fn map_of(set: Set, atoms: usize) -> Vec<u8> {
    (1..=atoms).map(|atom| if has(set, atom) { 1 } else { 2 }).collect()
}

/// Whether the second map decides as the first whatever the first decides.
pub fn holds_map(small: &[u8], large: &[u8]) -> bool {
    small.iter().zip(large).all(|(&small, &large)| small == 0 || small == large)
}

/// The smallest closed map that holds `base`, found as the part common to
/// all closed maps that hold it; `None` where there is none of them.
pub fn smallest_closed_map(sheet: &Sheet, base: &[u8]) -> Option<Vec<u8>> {
    let holding = all_maps(sheet.atoms).filter(|map| holds_map(base, map) && is_closed(sheet, map));
    let common = |one: Vec<u8>, other: Vec<u8>| {
        one.iter().zip(&other).map(|(&one, &other)| if one == other { one } else { 0 }).collect()
    };
    let smallest = holding.reduce(common)?;
    assert!(is_closed(sheet, &smallest), "there is a smallest closed map");
    Some(smallest)
}

fn all_maps(atoms: usize) -> impl Iterator<Item = Vec<u8>> {
    let count = 3u32.pow(atoms as u32);
    (0..count).map(move |rank| (0..atoms).map(|index| (rank / 3u32.pow(index as u32) % 3) as u8).collect())
}

/// Whether none of the four forcing rules adds anything to the map.
pub fn is_closed(sheet: &Sheet, map: &[u8]) -> bool {
    rule_1_adds_nothing(sheet, map)
        && rule_2_adds_nothing(sheet, map)
        && rule_3_adds_nothing(sheet, map)
        && rule_4_adds_nothing(sheet, map)
}

/// The literals of a body: atom, whether it is negated, weight.
fn literals(rule: &Rule) -> Vec<(usize, bool, i64)> {
    let positive = rule.positive.iter().map(|literal| (literal.atom, false, i64::from(literal.weight)));
    let negative = rule.negative.iter().map(|literal| (literal.atom, true, i64::from(literal.weight)));
    positive.chain(negative).collect()
}

fn is_true(map: &[u8], atom: usize, negated: bool) -> bool {
    map[atom - 1] == if negated { 2 } else { 1 }
}

fn is_false(map: &[u8], atom: usize, negated: bool) -> bool {
    is_true(map, atom, !negated)
}

fn sure(rule: &Rule, map: &[u8]) -> i64 {
    literals(rule).iter().filter(|&&(atom, negated, _)| is_true(map, atom, negated)).map(|literal| literal.2).sum()
}

fn reach(rule: &Rule, map: &[u8]) -> i64 {
    literals(rule).iter().filter(|&&(atom, negated, _)| !is_false(map, atom, negated)).map(|literal| literal.2).sum()
}

/// Reach less need.
pub fn margin(rule: &Rule, map: &[u8]) -> i64 {
    reach(rule, map) - i64::from(rule.need)
}

fn undecided_weights(rule: &Rule, map: &[u8]) -> Vec<i64> {
    literals(rule).iter().filter(|literal| map[literal.0 - 1] == 0).map(|literal| literal.2).collect()
}

fn rule_1_adds_nothing(sheet: &Sheet, map: &[u8]) -> bool {
    sheet
        .rules
        .iter()
        .all(|rule| rule.kind == Kind::Choice || sure(rule, map) < i64::from(rule.need) || map[rule.heads[0] - 1] == 1)
}

/// "An atom is in, a rule r of the sheet with that head has reach at or above
/// its need, and every rule of the sheet with that head that has reach at or
/// above its need is r."
fn rule_2_adds_nothing(sheet: &Sheet, map: &[u8]) -> bool {
    (1..=sheet.atoms).filter(|&atom| map[atom - 1] == 1).all(|atom| {
        let givers = || sheet.rules.iter().filter(|rule| rule.heads.contains(&atom) && margin(rule, map) >= 0);
        givers().all(|r| {
            let needs_nothing = undecided_weights(r, map).iter().all(|weight| margin(r, map) - weight >= 0);
            needs_nothing || !givers().all(|rule| is_same(rule, r))
        })
    })
}

/// "Two rules are the same when kind, heads, need, body and weights are all
/// equal."
fn is_same(one: &Rule, other: &Rule) -> bool {
    one.kind == other.kind && one.heads == other.heads && one.need == other.need && literals(one) == literals(other)
}

fn rule_3_adds_nothing(sheet: &Sheet, map: &[u8]) -> bool {
    sheet.rules.iter().all(|rule| {
        rule.kind == Kind::Choice
            || map[rule.heads[0] - 1] != 2
            || undecided_weights(rule, map).iter().all(|weight| sure(rule, map) + weight < i64::from(rule.need))
    })
}

fn rule_4_adds_nothing(sheet: &Sheet, map: &[u8]) -> bool {
    let u = founded(sheet, map);
    (1..=sheet.atoms).all(|atom| has(u, atom) || map[atom - 1] == 2)
}

/// The set U of rule 4 as the common part of all sets that fit.
fn founded(sheet: &Sheet, map: &[u8]) -> Set {
    let fits = |u: Set| {
        let none_out = (1..=sheet.atoms).all(|atom| !has(u, atom) || map[atom - 1] != 2);
        none_out && sheet.rules.iter().all(|rule| !reaches_within(rule, map, u) || heads_not_out(rule, map, u))
    };
    subsets_in_order(sheet.atoms).filter(|&u| fits(u)).fold(Set::MAX, |common, u| common & u)
}

fn reaches_within(rule: &Rule, map: &[u8], u: Set) -> bool {
    let counted =
        |&&(atom, negated, _): &&(usize, bool, i64)| !is_false(map, atom, negated) && (negated || has(u, atom));
    literals(rule).iter().filter(counted).map(|literal| literal.2).sum::<i64>() >= i64::from(rule.need)
}

fn heads_not_out(rule: &Rule, map: &[u8], u: Set) -> bool {
    rule.heads.iter().all(|&head| map[head - 1] == 2 || has(u, head))
}

#[cfg(test)]
mod tests {
    use super::*;
    use crate::draw::Draw;
    use crate::generator::{Size, sheet};
    use crate::sheet::{basic, choice, constraint, weight};

    #[test]
    fn the_first_set_has_every_atom_and_the_last_none() {
        let order = subsets_in_order(2).collect::<Vec<_>>();
        assert_eq!(order, [0b11, 0b01, 0b10, 0b00]);
    }

    #[test]
    fn a_set_that_only_supports_itself_is_not_stable() {
        let loop_of_one = Sheet { atoms: 1, rules: vec![basic(1, &[1], &[])], ..Sheet::default() };
        assert_eq!(models(&loop_of_one), [0]);
    }

    #[test]
    fn a_choice_gives_either_set() {
        let free = Sheet { atoms: 1, rules: vec![choice(&[1], &[], &[])], ..Sheet::default() };
        assert_eq!(models(&free), [1, 0]);
    }

    #[test]
    fn rules_that_differ_in_one_thing_are_not_the_same() {
        let rule = weight(1, 1, &[(2, 1)], &[(3, 2)]);
        let others = [
            weight(2, 1, &[(2, 1)], &[(3, 2)]),
            weight(1, 2, &[(2, 1)], &[(3, 2)]),
            weight(1, 1, &[(3, 1)], &[(3, 2)]),
            weight(1, 1, &[(2, 1)], &[(3, 1)]),
            weight(1, 1, &[(2, 1), (3, 2)], &[]),
            weight(1, 1, &[(2, 1)], &[]),
        ];
        assert!(is_same(&rule, &rule.clone()));
        assert!(others.iter().all(|other| !is_same(&rule, other)));
        let (counted, weighed) = (constraint(1, 1, &[2], &[]), weight(1, 1, &[(2, 1)], &[]));
        let of_each_kind = [basic(1, &[2], &[]), counted, choice(&[1], &[2], &[]), weighed];
        for (index, one) in of_each_kind.iter().enumerate() {
            for (place, other) in of_each_kind.iter().enumerate() {
                assert_eq!(is_same(one, other), index == place, "{one}; {other}");
            }
        }
    }

    #[test]
    fn copies_of_the_only_reason_force_its_body_and_two_different_reasons_do_not() {
        let free = choice(&[2], &[], &[]);
        let sheet = |rules: Vec<Rule>| Sheet { atoms: 2, rules, ..Sheet::default() };
        let copies = sheet(vec![basic(1, &[2], &[]), free.clone(), basic(1, &[2], &[])]);
        assert!(!rule_2_adds_nothing(&copies, &[1, 0]));
        assert!(rule_2_adds_nothing(&copies, &[1, 1]));
        assert!(rule_2_adds_nothing(&copies, &[0, 0]));
        let different = sheet(vec![basic(1, &[2], &[]), free, constraint(1, 1, &[2], &[])]);
        assert!(rule_2_adds_nothing(&different, &[1, 0]));
    }

    #[test]
    fn growing_from_nothing_gives_the_common_part_of_all_fitting_sets() {
        for seed in 0..300 {
            let mut draw = Draw::new("smallest", seed);
            let sheet = sheet(&mut draw, Size { atoms: 5, rules: 9, body: 3 });
            for s in subsets_in_order(sheet.atoms) {
                let all = (1u32 << sheet.atoms) - 1;
                assert_eq!(smallest(&sheet, s), smallest_by_all_sets(&sheet, s) & all, "seed {seed}");
            }
        }
    }
}
