//! Times the archive ("ours", where it is linked) and the plain solver in
//! one run and prints three tables: calls that solve and open, calls that
//! mostly read, and calls on sheets where repeats have to be looked for.
//!
//!     cargo run --release --bin measure [--features archive] [-- --write FILE]
//!
//! `--write FILE` puts each table between its two marker lines of a file, and
//! makes the file with the marker lines where there is none. Every call is
//! made on both desks, and their answers and maps must be equal.
//!
//! `--times FILE` times ours alone, open and solve of every sheet, and writes
//! a line for each: sheet, call and nanoseconds, with tabs between. Where the
//! file has times already, the lesser ones stay. The answers are not looked
//! at, so that an archive that answers otherwise can be timed too. `--times
//! FILE --against OLD` then prints the ratio of these times to those of the
//! file OLD, and the worst of them; `--against OLD NEW` does so for two files
//! that are there.

mod problems;
mod repeats;
mod tables;
mod times;

use outside::answer::Answer;
use outside::desk::Desk;
use problems::Problem;
use std::env;
use std::process::ExitCode;
use std::time::{Duration, Instant};
use tables::Row;

/// The desks take turns until so many turns are over and so long a time is
/// spent. Of each desk's times the least counts.
const TURNS: usize = 3;
const LONG_ENOUGH: Duration = Duration::from_millis(500);

fn main() -> ExitCode {
    if cfg!(debug_assertions) {
        eprintln!("measure: not a release build; the times say little");
    }
    let arguments = env::args().skip(1).collect::<Vec<_>>();
    let done = match arguments.iter().map(String::as_str).collect::<Vec<_>>()[..] {
        [] => measure(None),
        ["--write", file] => measure(Some(file)),
        ["--times", file] => take_times(file),
        ["--times", file, "--against", old] => take_times(file).and_then(|()| compare(old, file)),
        ["--against", old, new] => compare(old, new),
        _ => Err("use: measure [--write FILE | --times FILE [--against OLD] | --against OLD NEW]".to_string()),
    };
    match done {
        Ok(()) => ExitCode::SUCCESS,
        Err(message) => {
            eprintln!("measure: {message}");
            ExitCode::FAILURE
        }
    }
}

/// Times both desks, prints the tables, and writes them where there is a file.
fn measure(file: Option<&str>) -> Result<(), String> {
    let measured = |problems: Vec<Problem>| problems.iter().map(measured).collect::<Vec<_>>();
    let (reading, solving, repeats) =
        (measured(problems::reading()), measured(problems::solving()), measured(repeats::repeats()));
    let heads = tables::within(&repeats, (repeats::ONE_HEAD, repeats::MANY_HEADS), MOST_FOR_ONE_HEAD);
    let tables = [
        ("measures", tables::times(&solving)),
        ("reading", tables::speeds(&reading)),
        ("repeats", format!("{}\n{heads}", tables::times(&repeats))),
    ];
    for (_, table) in &tables {
        println!("\n{table}");
    }
    println!("{}", tables::verdict(&[reading, solving, repeats].concat()));
    match file {
        Some(file) => tables::write(file, &tables).map_err(|error| error.to_string()),
        None => Ok(()),
    }
}

/// Rules of one head may cost us so many times what rules of many heads do.
const MOST_FOR_ONE_HEAD: f64 = 2.0;

fn take_times(file: &str) -> Result<(), String> {
    if Desk::SUBJECT.name == Desk::PLAIN.name {
        eprintln!("measure: the archive is not linked; the plain solver is timed");
    }
    let old = times::read_if_there(file)?;
    let new = times::taken(&problems::opened_and_solved(problems::all()));
    times::write(file, &times::least(&old, &new))
}

fn compare(old: &str, new: &str) -> Result<(), String> {
    print!("{}", times::compared(&times::read(old)?, &times::read(new)?));
    Ok(())
}

fn measured(problem: &Problem) -> Row {
    eprintln!("{:?}: {}", problem.call, problem.name);
    let bytes = problem.sheet.bytes();
    let linked = Desk::SUBJECT.name != Desk::PLAIN.name;
    let mut plain = Timed::first(&Desk::PLAIN, problem, &bytes);
    let mut ours = linked.then(|| Timed::first(&Desk::SUBJECT, problem, &bytes));
    let start = Instant::now();
    for turn in 1.. {
        if turn >= TURNS && start.elapsed() >= LONG_ENOUGH {
            break;
        }
        plain.again(&Desk::PLAIN, problem, &bytes);
        if let Some(ours) = &mut ours {
            ours.again(&Desk::SUBJECT, problem, &bytes);
            assert_eq!((ours.code, &ours.map), (plain.code, &plain.map), "both answer alike on {}", problem.name);
        }
    }
    Row {
        name: problem.name.clone(),
        call: problem.call,
        bytes: bytes.len(),
        atoms: problem.sheet.atoms,
        rules: problem.sheet.rules.len(),
        answer: Answer::of_code(plain.code).expect("plain answers"),
        ours: ours.map(|ours| ours.least),
        plain: plain.least,
    }
}

/// The least time of a desk so far, its answer, and the map after it.
struct Timed {
    least: Duration,
    code: u64,
    map: Vec<u8>,
}

impl Timed {
    fn first(desk: &Desk, problem: &Problem, bytes: &[u8]) -> Timed {
        let mut timed = Timed { least: Duration::MAX, code: 0, map: vec![0; problem.sheet.atoms] };
        timed.again(desk, problem, bytes);
        timed
    }

    fn again(&mut self, desk: &Desk, problem: &Problem, bytes: &[u8]) {
        let start = Instant::now();
        self.code = desk.call_bare(problem.call, bytes, &mut self.map);
        self.least = self.least.min(start.elapsed());
    }
}
