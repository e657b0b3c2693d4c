//! Sheets on which repeats have to be looked for: many rules that give one
//! atom, long rules that differ late, and rules as long as they can be.

use super::problems::{ONE_BYTE, Problem};
use outside::desk::Call;
use outside::generator::filled;
use outside::sheet::{MOST_ATOMS, MOST_RULES, MOST_WEIGHT, Rule, Sheet, basic, choice, number_bytes, weight};
use std::iter;

/// All rules but the first give the last atom, and all differ.
pub const ONE_HEAD: &str = "different rules of one head";
/// The same rules but for their heads, of which there are as many as can be.
pub const MANY_HEADS: &str = "different rules of many heads";

/// Each of the sheets, opened and solved.
pub fn repeats() -> Vec<Problem> {
    let sheets = [
        (ONE_HEAD, of_heads(&[MOST_ATOMS])),
        (MANY_HEADS, of_heads(&long_atoms())),
        ("copies of one rule", asking(&[MOST_ATOMS], iter::repeat(basic(MOST_ATOMS, &[1, 2, 3], &[])))),
        ("weight rules that differ in a late weight", asking(&[MOST_ATOMS], late_weights())),
        ("long rules that differ in a late atom", asking(&[MOST_ATOMS], late_atoms())),
        ("longest weight rules, all different", asking(&[MOST_ATOMS], longest_rules())),
    ];
    let mut problems = Vec::new();
    for call in [Call::Open, Call::Solve] {
        problems.extend(sheets.iter().map(|(name, sheet)| Problem {
            name: name.to_string(),
            call,
            sheet: sheet.clone(),
        }));
    }
    problems
}

/// A sheet of these atoms in, of all atoms free but the last, and of as many
/// of these rules as it takes.
fn asking(asked: &[usize], rules: impl IntoIterator<Item = Rule>) -> Sheet {
    let free = choice(&(1..MOST_ATOMS).collect::<Vec<_>>(), &[], &[]);
    filled(Sheet { atoms: MOST_ATOMS, rules: vec![free], compute_in: asked.to_vec(), compute_out: vec![] }, rules)
}

/// As many rules as there can be, with these heads in turn, and each with a
/// body of its own: three atoms of one byte. All atoms that can be a head are
/// in, and nothing is forced.
fn of_heads(heads: &[usize]) -> Sheet {
    let rules = heads.iter().cycle().zip(three_of(ONE_BYTE)).map(|(&head, body)| basic(head, &body, &[]));
    asking(&long_atoms(), rules)
}

/// The last atoms, all of as many bytes. For each there are some rules.
fn long_atoms() -> Vec<usize> {
    let length = |atom: usize| number_bytes(atom as u32).len();
    let last = MOST_ATOMS.saturating_sub(MOST_RULES / 4);
    (last + 1..=MOST_ATOMS).filter(|&atom| length(atom) == length(MOST_ATOMS)).collect()
}

fn three_of(most: usize) -> impl Iterator<Item = [usize; 3]> {
    let pairs = (1..=most).flat_map(move |first| (first + 1..=most).map(move |second| (first, second)));
    pairs.flat_map(move |(first, second)| (second + 1..=most).map(move |third| [first, second, third]))
}

/// Weights of 1 but for the last, which is 1 in the first rule, 2 in the
/// second, and so on.
fn late_weights() -> impl Iterator<Item = Rule> {
    (1..).map(|last| {
        let literals = (1..=ONE_BYTE).map(|atom| (atom, if atom == ONE_BYTE { last } else { 1 }));
        weight(MOST_ATOMS, ONE_BYTE as u32, &literals.collect::<Vec<_>>(), &[])
    })
}

/// Every atom with each sign, and weights as long as they can be, which are
/// other ones in each rule.
fn longest_rules() -> impl Iterator<Item = Rule> {
    (0..).map(|turn| {
        let literals = (1..=MOST_ATOMS).map(|atom| (atom, MOST_WEIGHT - turn)).collect::<Vec<_>>();
        weight(MOST_ATOMS, MOST_WEIGHT, &literals, &literals)
    })
}

/// A quarter of the atoms, and then another one in each rule.
fn late_atoms() -> impl Iterator<Item = Rule> {
    let common = MOST_ATOMS / 4;
    (common + 1..MOST_ATOMS).map(move |last| {
        let body = (1..=common).chain([last]).collect::<Vec<_>>();
        basic(MOST_ATOMS, &body, &[])
    })
}

#[cfg(test)]
mod tests {
    use super::*;
    use outside::desk::Desk;
    use outside::repeats::{Near, different};
    use outside::sheet::{MOST_BYTES, bytes_of};
    use std::collections::BTreeSet;

    fn sheet_of(name: &str) -> Sheet {
        repeats().into_iter().find(|problem| problem.name.starts_with(name)).expect("a problem has this name").sheet
    }

    fn opened(sheet: &Sheet) -> Vec<u8> {
        let mut map = vec![9; sheet.atoms];
        Desk::PLAIN.call_bare(Call::Open, &sheet.bytes(), &mut map);
        map
    }

    #[test]
    fn one_head_and_many_heads_are_alike_but_for_the_heads_and_force_nothing() {
        let (one, many) = (sheet_of(ONE_HEAD), sheet_of(MANY_HEADS));
        assert_eq!((one.rules.len(), one.bytes().len()), (MOST_RULES, many.bytes().len()));
        assert_eq!(one.rules.len(), many.rules.len());
        for (one, many) in one.rules.iter().zip(&many.rules) {
            assert_eq!(one, &Rule { heads: one.heads.clone(), ..many.clone() });
        }
        assert_eq!(different(&one.rules).len(), MOST_RULES);
        let asked = (1..=MOST_ATOMS).map(|atom| u8::from(one.compute_in.contains(&atom))).collect::<Vec<_>>();
        assert_eq!((opened(&one), opened(&many)), (asked.clone(), asked));
        let heads = |sheet: &Sheet| sheet.rules[1..].iter().map(|rule| rule.heads[0]).collect::<BTreeSet<_>>();
        assert_eq!((heads(&one).len(), heads(&many).len()), (1, one.compute_in.len()));
    }

    #[test]
    fn copies_force_one_body_and_near_repeats_nothing() {
        let in_atoms = |sheet: &Sheet| opened(sheet).iter().filter(|&&side| side == 1).count();
        let copies = sheet_of("copies");
        assert_eq!((copies.rules.len(), different(&copies.rules).len()), (MOST_RULES, 2));
        assert_eq!(in_atoms(&copies), 4);
        for (name, near) in [("weight rules", Near::Weight), ("long rules", Near::Atom)] {
            let sheet = sheet_of(name);
            let rules = &sheet.rules[1..];
            assert!(rules[1..].iter().all(|rule| Near::between(rule, &rules[0]) == Some(near)), "{name}");
            assert!(rules.len() > 200 && sheet.bytes().len() > MOST_BYTES / 2, "{name}");
            assert_eq!(in_atoms(&sheet), 1, "{name}");
        }
    }

    #[test]
    fn the_longest_rules_fill_a_sheet_and_are_all_different() {
        let sheet = sheet_of("longest");
        let rules = &sheet.rules[1..];
        assert!(rules.iter().all(|rule| rule.length() == 2 * MOST_ATOMS));
        assert_eq!(different(rules).len(), rules.len());
        assert!(sheet.bytes().len() + bytes_of(&rules[0].numbers()).len() > MOST_BYTES);
    }
}
