//! What was measured, as tables in Markdown between the marker lines of a
//! file.

use outside::answer::Answer;
use outside::desk::Call;
use std::time::Duration;
use std::{fs, io};

/// Up to this ratio a time is not called slower: two runs of one program
/// differ by as much.
const SAME: f64 = 1.05;

const NOT_LINKED: &str = "The archive is not linked; only the plain solver was timed.";

/// What was found of a problem.
#[derive(Clone)]
pub struct Row {
    pub name: String,
    pub call: Call,
    pub bytes: usize,
    pub atoms: usize,
    pub rules: usize,
    pub answer: Answer,
    pub ours: Option<Duration>,
    pub plain: Duration,
}

/// A column: its name, and how Markdown sets it.
type Column = (String, &'static str);

const LEFT: &str = "---";
const RIGHT: &str = "---:";

/// The rows with their answers, and with times in milliseconds.
pub fn times(rows: &[Row]) -> String {
    let start = [("Sheet", LEFT), ("Call", LEFT), ("Atoms", RIGHT), ("Rules", RIGHT), ("Answer", LEFT)];
    let cells = |row: &Row| {
        vec![row.name.clone(), called(row.call), row.atoms.to_string(), row.rules.to_string(), row.answer.to_string()]
    };
    let milliseconds = |_: &Row, time: Duration| format!("{:.3}", time.as_secs_f64() * 1000.0);
    table(&start, "ms", rows, cells, milliseconds)
}

/// The rows with their lengths, and in megabytes a second.
pub fn speeds(rows: &[Row]) -> String {
    let start = [("Sheet", LEFT), ("Call", LEFT), ("Bytes", RIGHT)];
    let cells = |row: &Row| vec![row.name.clone(), called(row.call), row.bytes.to_string()];
    let megabytes = |row: &Row, time: Duration| format!("{:.0}", row.bytes as f64 / 1e6 / time.as_secs_f64());
    table(&start, "MB/s", rows, cells, megabytes)
}

/// The table with these first columns, with ours (where there is ours) and
/// plain as `figure` gives them, and with the ratio of their times.
fn table(
    start: &[(&str, &'static str)],
    unit: &str,
    rows: &[Row],
    cells: impl Fn(&Row) -> Vec<String>,
    figure: impl Fn(&Row, Duration) -> String,
) -> String {
    let mut columns = start.iter().map(|&(name, set)| (name.to_string(), set)).collect::<Vec<Column>>();
    if linked(rows) {
        columns.push((format!("Ours, {unit}"), RIGHT));
    }
    columns.push((format!("Plain, {unit}"), RIGHT));
    if linked(rows) {
        columns.push(("Ours / plain".to_string(), RIGHT));
    }
    let names = columns.iter().map(|(name, _)| name.clone()).collect::<Vec<_>>();
    let settings = columns.iter().map(|(_, set)| set.to_string()).collect::<Vec<_>>();
    let mut lines = vec![line(&names), format!("|{}|", settings.join("|"))];
    for row in rows {
        let mut all = cells(row);
        all.extend(row.ours.map(|ours| figure(row, ours)));
        all.push(figure(row, row.plain));
        all.extend(row.ours.map(|ours| format!("{:.2}", ratio(ours, row.plain))));
        lines.push(line(&all));
    }
    lines.join("\n") + "\n"
}

fn line(cells: &[String]) -> String {
    format!("| {} |", cells.join(" | "))
}

/// A call in a word or two.
pub fn called(call: Call) -> String {
    match call {
        Call::Rule { rule, .. } => format!("rule {rule}"),
        call => format!("{call:?}").to_lowercase(),
    }
}

fn linked(rows: &[Row]) -> bool {
    rows.iter().any(|row| row.ours.is_some())
}

/// The time of ours over the time of plain, in every table.
fn ratio(ours: Duration, plain: Duration) -> f64 {
    ours.as_secs_f64() / plain.as_secs_f64()
}

/// Where ours is the slower.
pub fn verdict(rows: &[Row]) -> String {
    let slower = |row: &&Row| row.ours.is_some_and(|ours| ratio(ours, row.plain) > SAME);
    let names =
        rows.iter().filter(slower).map(|row| format!("{} of {}", called(row.call), row.name)).collect::<Vec<_>>();
    match linked(rows) {
        false => NOT_LINKED.to_string(),
        true if names.is_empty() => "Ours is not slower than plain on any sheet.".to_string(),
        true => format!("Ours is slower than plain on: {}.", names.join("; ")),
    }
}

/// What open and solve of one sheet cost us over what they cost us on
/// another, and whether both are within this.
pub fn within(rows: &[Row], (one, other): (&str, &str), most: f64) -> String {
    let ours = |name: &str, call: Call| rows.iter().find(|row| row.name == name && row.call == call)?.ours;
    let ratio_of = |call: Call| Some(ratio(ours(one, call)?, ours(other, call)?));
    let [Some(open), Some(solve)] = [Call::Open, Call::Solve].map(ratio_of) else {
        return format!("{NOT_LINKED}\n");
    };
    let met = if open.max(solve) <= most { "it is" } else { "IT IS NOT" };
    format!("Ours, {one} over {other}: open {open:.2}, solve {solve:.2}. At most {most} is asked for, and {met}.\n")
}

/// The lines before and after the table of this name.
fn markers(name: &str) -> [String; 2] {
    [format!("<!-- {name} begin: written by outside/src/bin/measure -->"), format!("<!-- {name} end -->")]
}

/// Puts each table between its marker lines of a file, and makes the file
/// where there is none.
pub fn write(file: &str, tables: &[(&str, String)]) -> io::Result<()> {
    let mut text = match fs::read_to_string(file) {
        Ok(text) => text,
        Err(error) if error.kind() == io::ErrorKind::NotFound => empty(tables),
        Err(error) => return Err(error),
    };
    for (name, table) in tables {
        text = between_markers(&text, name, table).ok_or_else(|| {
            let message = format!("{file} lacks the marker lines\n{}", markers(name).join("\n"));
            io::Error::new(io::ErrorKind::InvalidData, message)
        })?;
    }
    fs::write(file, text)
}

/// A file with the marker lines of the tables and nothing between them.
fn empty(tables: &[(&str, String)]) -> String {
    let places = tables.iter().map(|(name, _)| markers(name).join("\n") + "\n");
    format!("# Measures\n\n{}", places.collect::<Vec<_>>().join("\n"))
}

/// The text with the table between its marker lines, if it has them.
fn between_markers(text: &str, name: &str, table: &str) -> Option<String> {
    let [first, last] = markers(name);
    let begin = text.find(&first)? + first.len();
    let end = begin + text[begin..].find(&last)?;
    Some(format!("{}\n\n{table}\n{}", &text[..begin], &text[end..]))
}

#[cfg(test)]
mod tests {
    use super::*;

    #[test]
    fn a_table_takes_the_place_of_the_old_one() {
        let [begin, end] = markers("name");
        let text = format!("before\n{begin}\nold\n{end}\nafter\n");
        let once = between_markers(&text, "name", "| new |\n").expect("the markers are there");
        assert_eq!(once, format!("before\n{begin}\n\n| new |\n\n{end}\nafter\n"));
        assert_eq!(between_markers(&once, "name", "| new |\n"), Some(once.clone()));
        assert_eq!(between_markers(&once, "other", "| new |\n"), None);
        assert_eq!(between_markers("no markers", "name", "| new |\n"), None);
    }

    #[test]
    fn an_empty_file_has_a_place_for_each_table() {
        let tables = [("one", "| 1 |\n".to_string()), ("two", "| 2 |\n".to_string())];
        let text = empty(&tables);
        for (name, table) in &tables {
            assert!(between_markers(&text, name, table).is_some_and(|text| text.contains(table)));
        }
    }

    fn row() -> Row {
        Row {
            name: "a sheet".to_string(),
            call: Call::Check,
            bytes: 3000,
            atoms: 2,
            rules: 5,
            answer: Answer::Accepted { atoms: 2, rules: 5 },
            ours: Some(Duration::from_micros(10)),
            plain: Duration::from_micros(20),
        }
    }

    #[test]
    fn one_sheet_is_held_against_another() {
        let timed = |name: &str, call: Call, ours: u64| {
            let ours = Some(Duration::from_micros(ours));
            Row { name: name.to_string(), call, ours, ..row() }
        };
        let mut rows = [("one", 30, 50), ("other", 20, 20)]
            .map(|(name, open, solve)| vec![timed(name, Call::Open, open), timed(name, Call::Solve, solve)])
            .concat();
        let said = within(&rows, ("one", "other"), 2.0);
        assert_eq!(said, "Ours, one over other: open 1.50, solve 2.50. At most 2 is asked for, and IT IS NOT.\n");
        assert!(within(&rows, ("one", "other"), 2.5).ends_with("At most 2.5 is asked for, and it is.\n"));
        rows[0].ours = None;
        assert_eq!(within(&rows, ("one", "other"), 2.0), format!("{NOT_LINKED}\n"));
    }

    #[test]
    fn the_tables_show_ours_plain_and_their_ratio() {
        let mut row = row();
        assert!(speeds(std::slice::from_ref(&row)).ends_with("| a sheet | check | 3000 | 300 | 150 | 0.50 |\n"));
        assert!(times(std::slice::from_ref(&row)).ends_with(" | 0.010 | 0.020 | 0.50 |\n"));
        row.ours = None;
        assert!(speeds(std::slice::from_ref(&row)).ends_with("| a sheet | check | 3000 | 150 |\n"));
    }
}
