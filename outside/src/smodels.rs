//! A sheet in the text form of lparse and smodels, which clasp reads.

use crate::sheet::{Kind, Literal, Rule, Sheet};
use std::fmt::Write;

/// The sheet as text. Atom a of the sheet is atom a + 1 of the text, because
/// atom 1 there is false by custom, and its name is the number a.
pub fn text(sheet: &Sheet) -> String {
    let mut text = String::new();
    for rule in &sheet.rules {
        line(&mut text, &rule_numbers(rule));
    }
    text.push_str("0\n");
    for atom in 1..=sheet.atoms {
        writeln!(text, "{} {atom}", atom + 1).expect("text can be written");
    }
    text.push_str("0\nB+\n");
    compute(&mut text, &sheet.compute_in);
    text.push_str("B-\n");
    compute(&mut text, &sheet.compute_out);
    text.push_str("1\n");
    text
}

fn rule_numbers(rule: &Rule) -> Vec<usize> {
    let shifted = |literals: &[Literal]| literals.iter().map(|literal| literal.atom + 1).collect::<Vec<_>>();
    let body = [shifted(&rule.negative), shifted(&rule.positive)].concat();
    let counts = [rule.length(), rule.negative.len()];
    let head = rule.heads[0] + 1;
    let need = rule.need as usize;
    let kind = rule.kind as usize;
    match rule.kind {
        Kind::Basic => [&[kind, head], &counts[..], &body].concat(),
        Kind::Constraint => [&[kind, head], &counts[..], &[need], &body].concat(),
        Kind::Choice => {
            let heads = rule.heads.iter().map(|head| head + 1).collect::<Vec<_>>();
            [&[kind, heads.len()], &heads[..], &counts, &body].concat()
        }
        Kind::Weight => {
            let literals = rule.negative.iter().chain(&rule.positive);
            let weights = literals.map(|literal| literal.weight as usize).collect::<Vec<_>>();
            [&[kind, head, need], &counts[..], &body, &weights].concat()
        }
    }
}

fn compute(text: &mut String, atoms: &[usize]) {
    for atom in atoms {
        line(text, &[atom + 1]);
    }
    text.push_str("0\n");
}

fn line(text: &mut String, numbers: &[usize]) {
    let numbers = numbers.iter().map(usize::to_string).collect::<Vec<_>>();
    text.push_str(&numbers.join(" "));
    text.push('\n');
}

/// The first model in the paper's order among those that clasp wrote, as the
/// line that the solve program writes for it: `MODEL` and the in-atoms, or
/// `NONE`. Refuses text that is not a finished run of `clasp 0`.
pub fn first_of_clasp(output: &str) -> Result<String, String> {
    let mut models = Vec::new();
    let mut lines = output.lines();
    let mut finished = false;
    while let Some(line) = lines.next() {
        if line.starts_with("Answer:") {
            models.push(atoms_of(lines.next().unwrap_or_default())?);
        }
        finished |= line == "SATISFIABLE" || line == "UNSATISFIABLE";
    }
    if !finished {
        return Err(format!("clasp did not finish:\n{output}"));
    }
    Ok(match models.into_iter().min_by(|one, other| in_order(one, other)) {
        Some(model) => model_line(&model),
        None => "NONE".to_string(),
    })
}

/// `MODEL` and the in-atoms, each after one space.
pub fn model_line(atoms: &[usize]) -> String {
    atoms.iter().fold("MODEL".to_string(), |line, atom| format!("{line} {atom}"))
}

fn atoms_of(line: &str) -> Result<Vec<usize>, String> {
    let atoms: Result<Vec<usize>, _> = line.split_whitespace().map(str::parse).collect();
    let mut atoms = atoms.map_err(|_| format!("not a model: {line:?}"))?;
    atoms.sort_unstable();
    Ok(atoms)
}

/// At the lowest atom where two sets differ, the one that has it is first.
/// Both are increasing.
fn in_order(one: &[usize], other: &[usize]) -> std::cmp::Ordering {
    for (a, b) in one.iter().zip(other) {
        if a != b {
            return a.cmp(b);
        }
    }
    other.len().cmp(&one.len())
}

#[cfg(test)]
mod tests {
    use super::*;
    use crate::sheet::{basic, choice, constraint, weight};

    #[test]
    fn each_kind_has_its_line() {
        let rules = vec![
            basic(1, &[2], &[3]),
            constraint(1, 2, &[2], &[3]),
            choice(&[1, 2], &[], &[3]),
            weight(1, 6, &[(2, 4)], &[(3, 5)]),
        ];
        let sheet = Sheet { atoms: 3, rules, compute_in: vec![1], compute_out: vec![2, 3] };
        let lines = ["1 2 2 1 4 3", "2 2 2 1 2 4 3", "3 2 2 3 1 1 4", "5 2 6 2 1 4 3 5 4", "0", "2 1", "3 2", "4 3"];
        let rest = ["0", "B+", "2", "0", "B-", "3", "4", "0", "1", ""];
        assert_eq!(text(&sheet), [&lines[..], &rest].concat().join("\n"));
    }

    #[test]
    fn the_first_model_is_found() {
        let output = "Answer: 1\n2 3\nAnswer: 2\n1\nAnswer: 3\n\nSATISFIABLE\n";
        assert_eq!(first_of_clasp(output), Ok("MODEL 1".to_string()));
        assert_eq!(first_of_clasp("Answer: 1\n\nSATISFIABLE\n"), Ok("MODEL".to_string()));
        assert_eq!(first_of_clasp("Answer: 1\n1\nAnswer: 2\n1 2\nSATISFIABLE\n"), Ok("MODEL 1 2".to_string()));
        assert_eq!(first_of_clasp("UNSATISFIABLE\n"), Ok("NONE".to_string()));
        assert!(first_of_clasp("Answer: 1\n1\n").is_err());
    }
}
