//! The sheets that are measured, and the call that is timed on each.

use super::repeats::repeats;
use outside::desk::Call;
use outside::draw::Draw;
use outside::generator::sheet_of_length;
use outside::sheet::{MOST_ATOMS, MOST_BYTES, MOST_RULES, Rule, Sheet, basic, choice, constraint, weight};
use outside::translations::{colouring, random_clauses, ring, satisfiability};
use std::ops::RangeInclusive;

/// A sheet and the call that is timed on it.
#[derive(Clone)]
pub struct Problem {
    pub name: String,
    pub call: Call,
    pub sheet: Sheet,
}

/// Colourings of rings, satisfiability, and open alone on these, on chains
/// that force one atom after another, and on a sheet of the greatest length.
pub fn solving() -> Vec<Problem> {
    let mut problems = Vec::new();
    for (vertices, colours) in [(20, 3), (60, 3), (170, 3), (51, 2), (101, 2), (255, 2)] {
        problems.push(Problem { call: Call::Solve, ..ring_problem(vertices, colours) });
    }
    // Seeds whose clauses can (first) and cannot (second) be satisfied.
    for (variables, seeds) in [(40, [0, 1]), (60, [2, 0]), (80, [5, 9])] {
        problems.extend(seeds.map(|seed| Problem { call: Call::Solve, ..clauses_problem(variables, seed) }));
    }
    problems.extend([20, 60, 170].map(|vertices| ring_problem(vertices, 3)));
    problems.extend([(40, 0), (60, 2), (80, 5)].map(|(variables, seed)| clauses_problem(variables, seed)));
    problems.extend([128, 256, 512].map(chain_problem));
    problems.push(longest_problem());
    problems
}

/// Sheets of one-byte numbers only, with short rules and with long ones, of
/// atoms that take two bytes, and of the greatest length; each is checked,
/// opened, and asked for the last of its rules.
pub fn reading() -> Vec<Problem> {
    let mut problems = Vec::new();
    for sheet in [short_rules(), long_rules(), two_byte_atoms(), longest_problem()] {
        let last = Call::Rule { rule: sheet.sheet.rules.len() as u64, part: 5, index: 0 };
        for call in [Call::Check, Call::Open, last] {
            problems.push(Problem { name: sheet.name.clone(), call, sheet: sheet.sheet.clone() });
        }
    }
    problems
}

/// Everything that is measured.
pub fn all() -> Vec<Problem> {
    solving().into_iter().chain(reading()).chain(repeats()).collect()
}

/// Open and solve of every sheet of these problems.
pub fn opened_and_solved(problems: Vec<Problem>) -> Vec<Problem> {
    let mut both: Vec<Problem> = Vec::new();
    for problem in problems {
        if !both.iter().any(|known| known.name == problem.name) {
            both.extend([Call::Open, Call::Solve].map(|call| Problem { call, ..problem.clone() }));
        }
    }
    both
}

fn ring_problem(vertices: usize, colours: usize) -> Problem {
    let name = format!("ring of {vertices}, {colours} colours");
    Problem { name, call: Call::Open, sheet: colouring(&ring(vertices), colours) }
}

/// 4.3 clauses for each variable, as Niemelä and Simons take them.
fn clauses_problem(variables: usize, seed: u64) -> Problem {
    let count = (variables * 43).div_ceil(10);
    let clauses = random_clauses(&mut Draw::new("3-SAT", seed), variables, count);
    let name = format!("3-SAT, {variables} variables, seed {seed}");
    Problem { name, call: Call::Open, sheet: satisfiability(variables, &clauses) }
}

/// Each atom follows from the next one, and the last from nothing.
fn chain_problem(atoms: usize) -> Problem {
    let mut rules = (1..atoms).map(|atom| basic(atom, &[atom + 1], &[])).collect::<Vec<_>>();
    rules.push(basic(atoms, &[], &[]));
    Problem { name: format!("chain of {atoms}"), call: Call::Open, sheet: Sheet { atoms, rules, ..Sheet::default() } }
}

fn longest_problem() -> Problem {
    let sheet = sheet_of_length(&mut Draw::new("longest", 0), MOST_BYTES);
    Problem { name: format!("weight rules, {MOST_BYTES} bytes"), call: Call::Open, sheet }
}

/// The greatest number that one byte can say.
pub const ONE_BYTE: usize = 127;

fn short_rules() -> Problem {
    let sheet = mixed_sheet(&mut Draw::new("short rules", 0), 1..=ONE_BYTE, ONE_BYTE, 3);
    Problem { name: "one-byte numbers, short rules".to_string(), call: Call::Open, sheet }
}

fn long_rules() -> Problem {
    let sheet = mixed_sheet(&mut Draw::new("long rules", 0), 1..=ONE_BYTE, ONE_BYTE, ONE_BYTE);
    Problem { name: "one-byte numbers, long rules".to_string(), call: Call::Open, sheet }
}

fn two_byte_atoms() -> Problem {
    let sheet = mixed_sheet(&mut Draw::new("two-byte atoms", 0), ONE_BYTE + 1..=MOST_ATOMS, MOST_RULES, 10);
    Problem { name: "two-byte atoms".to_string(), call: Call::Open, sheet }
}

/// So many rules of every kind in turn over these atoms, with up to so many
/// literals of each sign. The first is a choice of all the atoms.
fn mixed_sheet(draw: &mut Draw, atoms: RangeInclusive<usize>, count: usize, most: usize) -> Sheet {
    let mut rules = vec![choice(&atoms.clone().collect::<Vec<_>>(), &[], &[])];
    while rules.len() < count {
        let rule = mixed_rule(draw, rules.len(), &atoms, most);
        rules.push(rule);
    }
    Sheet { atoms: *atoms.end(), rules, ..Sheet::default() }
}

fn mixed_rule(draw: &mut Draw, turn: usize, atoms: &RangeInclusive<usize>, most: usize) -> Rule {
    let below = atoms.start() - 1;
    let mut drawn = |least: usize| {
        let count = draw.between(least, most);
        draw.subset(count, atoms.end() - below).iter().map(|atom| atom + below).collect::<Vec<_>>()
    };
    let (heads, positive, negative) = (drawn(1), drawn(0), drawn(0));
    let bound = (positive.len() + negative.len()).div_ceil(2) as u32;
    let weighed = |list: &[usize]| list.iter().map(|&atom| (atom, (atom % 7) as u32)).collect::<Vec<_>>();
    match turn % 4 {
        0 => basic(heads[0], &positive, &negative),
        1 => constraint(heads[0], bound, &positive, &negative),
        2 => choice(&heads, &positive, &negative),
        _ => {
            let rule = weight(heads[0], bound, &weighed(&positive), &weighed(&negative));
            // A few of the bodies weigh less than half their length.
            Rule { need: bound.min(rule.sum()), ..rule }
        }
    }
}

#[cfg(test)]
mod tests {
    use super::*;
    use outside::answer::Answer;
    use outside::desk::Desk;

    #[test]
    fn every_problem_is_within_the_limits() {
        for problem in all() {
            let code = Desk::PLAIN.call_bare(Call::Check, &problem.sheet.bytes(), &mut []);
            assert!(matches!(Answer::of_code(code), Some(Answer::Accepted { .. })), "{}", problem.name);
        }
    }

    #[test]
    fn every_sheet_is_opened_and_solved_once() {
        let (one, other) = (ring_problem(5, 2), chain_problem(3));
        let problems = vec![Problem { call: Call::Check, ..one.clone() }, one.clone(), other.clone(), one.clone()];
        let both = opened_and_solved(problems);
        let both = both.iter().map(|problem| (&problem.name, problem.call)).collect::<Vec<_>>();
        let calls = |problem| [(problem, Call::Open), (problem, Call::Solve)];
        assert_eq!(both, [calls(&one.name), calls(&other.name)].concat());
    }

    #[test]
    fn the_sheets_that_are_read_are_what_their_names_say() {
        for problem in [short_rules(), long_rules()] {
            assert!(problem.sheet.numbers().iter().all(|&number| number as usize <= ONE_BYTE), "{}", problem.name);
        }
        let two = two_byte_atoms();
        let atoms = two.sheet.rules.iter().flat_map(|rule| rule.positive.iter().chain(&rule.negative));
        assert!(atoms.into_iter().all(|literal| literal.atom > ONE_BYTE));
        assert_eq!(longest_problem().sheet.bytes().len(), MOST_BYTES);
    }
}
