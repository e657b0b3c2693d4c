//! Small services around sheets, for scripts:
//!
//! - `sheets make SEED`: writes a drawn sheet to standard output.
//! - `sheets solve`: reads a sheet and writes the line of the solve program,
//!   found by the plain solver.
//! - `sheets smodels`: reads a sheet and writes it as text for clasp.
//! - `sheets first`: reads what `clasp 0` wrote and writes the line of the
//!   solve program for the first model.
//! - `sheets hex`: reads bytes and writes two digits for each.

use outside::agreement::compare::hex;
use outside::answer::{Answer, Refusal};
use outside::draw::Draw;
use outside::generator::{self, Size};
use outside::plain::desk_solve;
use outside::plain::reader::read_sheet;
use outside::sheet::{MOST_ATOMS, Sheet};
use outside::smodels;
use std::env;
use std::io::{self, Read, Write};
use std::process::ExitCode;

fn main() -> ExitCode {
    let arguments = env::args().skip(1).collect::<Vec<_>>();
    let words = arguments.iter().map(String::as_str).collect::<Vec<_>>();
    match answer(&words) {
        Ok(bytes) => match io::stdout().write_all(&bytes) {
            Ok(()) => ExitCode::SUCCESS,
            Err(error) => failed(&error.to_string()),
        },
        Err(message) => failed(&message),
    }
}

fn failed(message: &str) -> ExitCode {
    eprintln!("sheets: {message}");
    ExitCode::FAILURE
}

fn answer(words: &[&str]) -> Result<Vec<u8>, String> {
    match words {
        ["make", seed] => {
            let seed = seed.parse().map_err(|_| format!("not a seed: {seed}"))?;
            Ok(drawn(seed).bytes())
        }
        ["solve"] => Ok(format!("{}\n", solve_line(&input()?)).into_bytes()),
        ["smodels"] => {
            let sheet = read_sheet(&input()?).map_err(refused_line)?;
            Ok(smodels::text(&sheet).into_bytes())
        }
        ["first"] => {
            let output = String::from_utf8(input()?).map_err(|error| error.to_string())?;
            Ok(format!("{}\n", smodels::first_of_clasp(&output)?).into_bytes())
        }
        ["hex"] => Ok(format!("{}\n", hex(&input()?)).into_bytes()),
        _ => Err("use: sheets make SEED | solve | smodels | first | hex".to_string()),
    }
}

fn input() -> Result<Vec<u8>, String> {
    let mut bytes = Vec::new();
    io::stdin().read_to_end(&mut bytes).map_err(|error| error.to_string())?;
    Ok(bytes)
}

/// A sheet that clasp can list all models of: few atoms, and many rules.
fn drawn(seed: u64) -> Sheet {
    let mut draw = Draw::new("clasp", seed);
    let size = draw.pick(&[
        Size { atoms: 5, rules: 10, body: 2 },
        Size { atoms: 9, rules: 20, body: 3 },
        Size { atoms: 14, rules: 30, body: 3 },
        Size { atoms: 15, rules: 60, body: 3 },
    ]);
    generator::sheet(&mut draw, size)
}

fn solve_line(bytes: &[u8]) -> String {
    let mut map = [0; MOST_ATOMS];
    match Answer::of_code(desk_solve(bytes, &mut map)) {
        Some(Answer::Model) => {
            let sides = map.iter().enumerate();
            smodels::model_line(&sides.filter(|(_, side)| **side == 1).map(|(index, _)| index + 1).collect::<Vec<_>>())
        }
        Some(Answer::Refused(refusal)) => refused_line(refusal),
        _ => "NONE".to_string(),
    }
}

fn refused_line(refusal: Refusal) -> String {
    format!("REFUSED {} {}", refusal.number, refusal.place)
}

#[cfg(test)]
mod tests {
    use super::*;
    use outside::sheet::basic;

    fn line_of(rules: Vec<outside::sheet::Rule>) -> String {
        solve_line(&Sheet { atoms: 2, rules, ..Sheet::default() }.bytes())
    }

    #[test]
    fn the_line_is_as_in_the_paper() {
        let fourth = [1, 2, 2, 1, 1, 0, 1, 2, 1, 2, 0, 1, 1, 0, 0];
        assert_eq!(solve_line(&fourth), "MODEL 1");
        assert_eq!(line_of(vec![basic(1, &[1], &[])]), "MODEL");
        assert_eq!(line_of(vec![basic(1, &[], &[]), basic(2, &[], &[])]), "MODEL 1 2");
        assert_eq!(line_of(vec![basic(1, &[], &[1])]), "NONE");
        assert_eq!(solve_line(&[1, 2]), "REFUSED 1 2");
    }
}
