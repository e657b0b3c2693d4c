//! Every call on all kinds of bytes, against the plain solver.

use super::Outcome;
use super::parts::every_part;
use crate::agreement::compare::Table;
use crate::answer::{Answer, Refusal};
use crate::bounds::{Known, about_the_sum};
use crate::cases::refused_by_every_call;
use crate::desk::{After, Call, Desk};
use crate::draw::Draw;
use crate::generator::{self, Size};
use crate::plain::reader::read_sheet;
use crate::sheet::{MOST_WEIGHT, Sheet, basic, bytes_of, choice, constraint, weight};

/// All byte strings of length up to 2 and many of length 3 (all that begin
/// with the edition); the seed is the first byte.
pub fn short_strings(desk: &Desk, seed: u64) -> Outcome {
    let first = seed as u8;
    if first == 0 {
        every_call_once(desk, &[])?;
    }
    every_call_once(desk, &[first])?;
    for second in 0..=255 {
        every_call_once(desk, &[first, second])?;
    }
    let step = if first == 1 { 1 } else { 97 };
    for rest in (0..=u16::MAX).step_by(step) {
        let [second, third] = rest.to_be_bytes();
        every_call_once(desk, &[first, second, third])?;
    }
    Ok(())
}

/// Each call once on a sheet, with a map that must stay as it is where the
/// sheet is refused.
fn every_call_once(desk: &Desk, sheet: &[u8]) -> Outcome {
    let table = Table { desk, sheet };
    let map = [0, 1, 2, 3, 9];
    for call in [
        Call::Check,
        Call::Open,
        Call::Pin { atom: 1, side: 1 },
        Call::Solve,
        Call::Test,
        Call::Margin { rule: 1 },
        Call::Rule { rule: 1, part: 0, index: 0 },
    ] {
        table.same(call, &map)?;
    }
    Ok(())
}

/// Strings of any bytes with a likely start.
pub fn any_bytes(desk: &Desk, seed: u64) -> Outcome {
    let mut draw = Draw::new("any bytes", seed);
    let sheet = generator::any_bytes(&mut draw);
    calls_on(desk, &mut draw, &sheet)
}

/// Well-formed sheets of every kind with any maps and any numbers.
pub fn well_formed(desk: &Desk, seed: u64) -> Outcome {
    let mut draw = Draw::new("well formed", seed);
    let size = generator::size(&mut draw);
    let sheet = generator::sheet(&mut draw, size);
    calls_on(desk, &mut draw, &sheet.bytes())?;
    if seed.is_multiple_of(4) { every_part(desk, &sheet, &mut draw) } else { Ok(()) }
}

/// Sheets with damages.
pub fn damaged(desk: &Desk, seed: u64) -> Outcome {
    let mut draw = Draw::new("damaged", seed);
    let size = generator::size(&mut draw);
    let sheet = generator::sheet(&mut draw, size);
    let bytes = generator::damaged(&mut draw, &sheet);
    calls_on(desk, &mut draw, &bytes)
}

/// Every number of a sheet in every wrong form, whole and cut off: what
/// refuses it, and where, is known without a reader.
pub fn long_numbers(desk: &Desk, seed: u64) -> Outcome {
    let mut draw = Draw::new("long numbers", seed);
    let numbers = match seed {
        0 => one_of_each().numbers(),
        _ => generator::sheet(&mut draw, Size { atoms: 5, rules: 4, body: 3 }).numbers(),
    };
    for index in 0..numbers.len() {
        let before = bytes_of(&numbers[..index]);
        let after = bytes_of(&numbers[index + 1..]);
        let place = before.len();
        for (form, number) in generator::long_forms(numbers[index]) {
            let sheet = [&before[..], &form, &after].concat();
            refused_by_every_call(desk, &sheet, Refusal { number, place })?;
            for end in place + 1..place + form.len() {
                let cut = Refusal { number: 1, place: end };
                let cut = if end < place + 4 { cut } else { Refusal { number: 15, place } };
                refused_by_every_call(desk, &sheet[..end], cut)?;
            }
        }
    }
    Ok(())
}

/// Sheets whose numbers lie about the greatest that one byte can say, as they
/// are, with each byte exchanged for one about 128, and cut off at each.
pub fn one_byte(desk: &Desk, seed: u64) -> Outcome {
    let mut draw = Draw::new("one byte", seed);
    let sheet = generator::about_one_byte(&mut draw).bytes();
    calls_on(desk, &mut draw, &sheet)?;
    let map = vec![0; 140];
    for place in 0..sheet.len() {
        for byte in [0x00, 0x7e, 0x7f, 0x80, 0x81] {
            let mut other = sheet.clone();
            other[place] = byte;
            let table = Table { desk, sheet: &other };
            table.same(Call::Check, &map)?;
            table.same(Call::Open, &map)?;
        }
        Table { desk, sheet: &sheet[..place] }.same(Call::Check, &map)?;
    }
    Ok(())
}

/// Bounds about the sum of their rule's weights: what check answers is known
/// without a reader, and plain is held to it too.
pub fn bounds(desk: &Desk, seed: u64) -> Outcome {
    let mut draw = Draw::new("bounds", seed);
    for Known { sheet, answer } in about_the_sum(&mut draw) {
        let wanted = After { code: answer.code(), map: Vec::new() };
        Table { desk: &Desk::PLAIN, sheet: &sheet }.answers(Call::Check, &[], &wanted)?;
        match answer {
            Answer::Refused(refusal) => refused_by_every_call(desk, &sheet, refusal)?,
            _ => calls_on(desk, &mut draw, &sheet)?,
        }
    }
    Ok(())
}

/// A sheet with every place where a number may stand, and with bounds of one
/// to four bytes, which take weights of as much.
fn one_of_each() -> Sheet {
    Sheet {
        atoms: 4,
        rules: vec![
            basic(1, &[2], &[3]),
            constraint(2, 1, &[3], &[4]),
            choice(&[3, 4], &[1], &[2]),
            weight(4, 3, &[(1, 2)], &[(2, 200)]),
            weight(4, 200, &[(1, 2)], &[(2, 200)]),
            weight(4, 20_000, &[(1, 20_000)], &[]),
            weight(4, 3_000_000, &[(1, MOST_WEIGHT), (2, MOST_WEIGHT)], &[(3, MOST_WEIGHT)]),
        ],
        compute_in: vec![1],
        compute_out: vec![2],
    }
}

/// Sheets near the limits.
pub fn large(desk: &Desk, seed: u64) -> Outcome {
    let mut draw = Draw::new("large", seed);
    let sheet = generator::large_sheet(&mut draw);
    calls_on(desk, &mut draw, &sheet.bytes())?;
    let bytes = generator::damaged(&mut draw, &sheet);
    Table { desk, sheet: &bytes }.same(Call::Check, &[]).map(drop)
}

/// Every call on one sheet: with a drawn map, and with the maps that open
/// and solve leave.
fn calls_on(desk: &Desk, draw: &mut Draw, sheet: &[u8]) -> Outcome {
    let table = Table { desk, sheet };
    let (atoms, rules) = read_sheet(sheet).map_or((3, 2), |sheet| (sheet.atoms, sheet.rules.len()));
    let map = generator::map(draw, atoms);
    table.same(Call::Check, &map)?;
    let opened = table.same(Call::Open, &map)?;
    let mut maps = vec![map.clone(), generator::map(draw, atoms), opened.map];
    if table.solves_soon() {
        let solved = table.same(Call::Solve, &map)?;
        maps.push(solved.map);
    }
    for map in &maps {
        table.same(Call::Test, map)?;
        table.same(Call::Margin { rule: generator::number(draw, rules) }, map)?;
        table.same(Call::Pin { atom: generator::atom(draw, atoms), side: generator::side(draw) }, map)?;
        let (rule, part) = (generator::number(draw, rules), generator::number(draw, 10));
        table.same(Call::Rule { rule, part, index: generator::number(draw, 4) }, map)?;
    }
    Ok(())
}
