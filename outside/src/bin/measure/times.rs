//! Our times alone, one line a call, so that a run with one archive can be
//! held against a run with another.

use super::problems::Problem;
use super::tables::called;
use outside::desk::Desk;
use std::fs;
use std::time::{Duration, Instant};

/// All calls are made in each round, each again and again for a while, and of
/// all times of a call the least counts.
const ROUNDS: usize = 5;
const A_WHILE: Duration = Duration::from_millis(100);

/// The least time of a call on a sheet.
#[derive(Clone, Debug, PartialEq)]
pub struct Time {
    sheet: String,
    call: String,
    nanoseconds: u128,
}

impl Time {
    /// Whether both are of the same call on the same sheet.
    fn is_of_call(&self, other: &Time) -> bool {
        (&self.sheet, &self.call) == (&other.sheet, &other.call)
    }
}

/// The times of the desk under test.
pub fn taken(problems: &[Problem]) -> Vec<Time> {
    let sheets = problems.iter().map(|problem| problem.sheet.bytes()).collect::<Vec<_>>();
    let mut least = vec![Duration::MAX; problems.len()];
    for round in 1..=ROUNDS {
        eprintln!("round {round} of {ROUNDS}");
        for ((problem, sheet), least) in problems.iter().zip(&sheets).zip(&mut least) {
            *least = (*least).min(least_of_a_while(problem, sheet));
        }
    }
    let time = |(problem, least): (&Problem, Duration)| Time {
        sheet: problem.name.clone(),
        call: called(problem.call),
        nanoseconds: least.as_nanos(),
    };
    problems.iter().zip(least).map(time).collect()
}

fn least_of_a_while(problem: &Problem, sheet: &[u8]) -> Duration {
    let mut map = vec![0; problem.sheet.atoms];
    let mut least = Duration::MAX;
    let start = Instant::now();
    while least == Duration::MAX || start.elapsed() < A_WHILE {
        let before = Instant::now();
        Desk::SUBJECT.call_bare(problem.call, sheet, &mut map);
        least = least.min(before.elapsed());
    }
    least
}

/// The new times, or the old ones of the same calls where these are less.
pub fn least(old: &[Time], new: &[Time]) -> Vec<Time> {
    let lesser = |time: &Time| old.iter().find(|old| old.is_of_call(time) && old.nanoseconds < time.nanoseconds);
    new.iter().map(|time| lesser(time).unwrap_or(time).clone()).collect()
}

/// Sheet, call and nanoseconds, with tabs between.
pub fn write(file: &str, times: &[Time]) -> Result<(), String> {
    let lines = times.iter().map(|time| format!("{}\t{}\t{}\n", time.sheet, time.call, time.nanoseconds));
    fs::write(file, lines.collect::<String>()).map_err(|error| format!("{file}: {error}"))
}

/// What [`write`] wrote, or nothing where there is no such file.
pub fn read_if_there(file: &str) -> Result<Vec<Time>, String> {
    if fs::exists(file).map_err(|error| format!("{file}: {error}"))? { read(file) } else { Ok(Vec::new()) }
}

/// What [`write`] wrote.
pub fn read(file: &str) -> Result<Vec<Time>, String> {
    let text = fs::read_to_string(file).map_err(|error| format!("{file}: {error}"))?;
    text.lines().map(|line| parsed(line).ok_or_else(|| format!("{file}: not a time: {line}"))).collect()
}

fn parsed(line: &str) -> Option<Time> {
    let mut parts = line.split('\t');
    let (sheet, call) = (parts.next()?.to_string(), parts.next()?.to_string());
    let nanoseconds = parts.next()?.parse().ok()?;
    parts.next().is_none().then_some(Time { sheet, call, nanoseconds })
}

/// The ratio of the new to the old time for each call that both have, the
/// calls that only one has, and the worst ratio.
pub fn compared(old: &[Time], new: &[Time]) -> String {
    let mut lines = vec!["new / old       old, ns       new, ns  call".to_string()];
    let mut worst: Option<(f64, &Time)> = None;
    for time in new {
        let Some(before) = old.iter().find(|old| old.is_of_call(time)) else {
            lines.push(format!("only new {:29}  {} of {}", time.nanoseconds, time.call, time.sheet));
            continue;
        };
        let ratio = time.nanoseconds as f64 / before.nanoseconds as f64;
        let figures = format!("{ratio:9.3} {:13} {:13}", before.nanoseconds, time.nanoseconds);
        lines.push(format!("{figures}  {} of {}", time.call, time.sheet));
        if worst.is_none_or(|(most, _)| ratio > most) {
            worst = Some((ratio, time));
        }
    }
    let missing = old.iter().filter(|old| !new.iter().any(|time| old.is_of_call(time)));
    lines.extend(
        missing.map(|time| format!("only old {:15}                {} of {}", time.nanoseconds, time.call, time.sheet)),
    );
    lines.push(match worst {
        Some((ratio, time)) => format!("worst {ratio:.3}: {} of {}", time.call, time.sheet),
        None => "nothing to compare".to_string(),
    });
    lines.join("\n") + "\n"
}

#[cfg(test)]
mod tests {
    use super::*;

    fn time(sheet: &str, call: &str, nanoseconds: u128) -> Time {
        Time { sheet: sheet.to_string(), call: call.to_string(), nanoseconds }
    }

    #[test]
    fn the_worst_ratio_is_named_and_so_is_what_only_one_run_has() {
        let old = [time("a", "open", 1000), time("a", "solve", 2000), time("b", "open", 7)];
        let new = [time("a", "solve", 2100), time("a", "open", 900), time("c", "open", 8)];
        let text = compared(&old, &new);
        let lines = text.lines().map(|line| line.split_whitespace().collect::<Vec<_>>().join(" ")).collect::<Vec<_>>();
        assert_eq!(
            lines[1..],
            [
                "1.050 2000 2100 solve of a",
                "0.900 1000 900 open of a",
                "only new 8 open of c",
                "only old 7 open of b",
                "worst 1.050: solve of a",
            ]
        );
        assert!(compared(&old, &[]).ends_with("nothing to compare\n"));
    }

    #[test]
    fn the_least_time_of_two_runs_counts_and_calls_of_the_old_run_alone_are_left_out() {
        let old = [time("a", "open", 1000), time("a", "solve", 2000), time("b", "open", 7)];
        let new = [time("a", "solve", 2100), time("a", "open", 900), time("c", "open", 8)];
        assert_eq!(least(&old, &new), [time("a", "solve", 2000), time("a", "open", 900), time("c", "open", 8)]);
    }

    #[test]
    fn a_line_is_read_back_and_another_is_not() {
        assert_eq!(parsed("a, b\topen\t12"), Some(time("a, b", "open", 12)));
        assert!(["", "a\topen", "a\topen\tx", "a\topen\t1\t2"].into_iter().all(|line| parsed(line).is_none()));
    }
}
