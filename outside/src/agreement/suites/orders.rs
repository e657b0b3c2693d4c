//! Rules and pins in several orders, and pins one after another.

use super::Outcome;
use crate::agreement::compare::{Disagreement, Table};
use crate::desk::{Call, Desk};
use crate::draw::Draw;
use crate::generator;

/// The same rules and the same pins in another order, with repeats and
/// refused pins between, end in equal maps.
pub fn shuffled(desk: &Desk, seed: u64) -> Outcome {
    let mut draw = Draw::new("shuffled", seed);
    let size = generator::size(&mut draw);
    let sheet = generator::sheet(&mut draw, size);
    let mut other = sheet.clone();
    draw.shuffle(&mut other.rules);
    let (bytes, other_bytes) = (sheet.bytes(), other.bytes());
    let table = Table { desk, sheet: &bytes };
    let other_table = Table { desk, sheet: &other_bytes };
    if table.solves_soon() && other_table.solves_soon() {
        let map = vec![9; sheet.atoms];
        let solved = table.made(Call::Solve, &map)?;
        other_table.answers(Call::Solve, &map, &solved)?;
    }
    ends_alike(&[table, other_table], sheet.atoms, &mut draw)
}

/// Some pins on one sheet, and on another sheet with the same rules the same
/// pins in another order, with repeats and refused pins between, end in equal
/// maps.
pub fn ends_alike([table, other]: &[Table; 2], atoms: usize, draw: &mut Draw) -> Outcome {
    let pins = (0..draw.between(0, 4)).map(|_| (generator::atom(draw, atoms), draw.pick(&[1, 2])));
    let pins = pins.collect::<Vec<_>>();
    let last = walk(table, atoms, &pins)?;
    let refused = [(0, 1), (atoms as u64 + 1, 2), (1, 0), (1, 3)];
    let mut mixed = [&pins[..], &pins[..pins.len() / 2], &refused].concat();
    draw.shuffle(&mut mixed);
    let other_last = walk(other, atoms, &mixed)?;
    if last == other_last {
        return Ok(());
    }
    let what = format!("pins {pins:?} lead to {last:?};\nin another order, {mixed:?}, to {other_last:?}");
    Err(other.disagreement(Call::Open, &[], &what))
}

/// The map after open and some pins.
fn walk(table: &Table, atoms: usize, pins: &[(u64, u64)]) -> Result<Vec<u8>, Disagreement> {
    let mut map = table.made(Call::Open, &vec![9; atoms])?.map;
    for &(atom, side) in pins {
        map = table.made(Call::Pin { atom, side }, &map)?.map;
    }
    Ok(map)
}

/// Open and then pins, each compared; a pin already held changes nothing.
pub fn pin_walks(desk: &Desk, seed: u64) -> Outcome {
    let mut draw = Draw::new("pin walks", seed);
    let size = generator::size(&mut draw);
    let sheet = generator::sheet(&mut draw, size);
    let bytes = sheet.bytes();
    let table = Table { desk, sheet: &bytes };
    let extra = draw.between(0, 5);
    let mut map = (0..sheet.atoms + extra).map(|_| draw.byte()).collect::<Vec<_>>();
    map = table.same(Call::Open, &map)?.map;
    for _ in 0..draw.between(1, 8) {
        let call = Call::Pin { atom: generator::atom(&mut draw, sheet.atoms), side: generator::side(&mut draw) };
        let after = table.same(call, &map)?;
        table.answers(call, &after.map, &after)?;
        map = after.map;
        table.same(Call::Margin { rule: generator::number(&mut draw, sheet.rules.len()) }, &map)?;
        table.same(Call::Test, &map)?;
    }
    Ok(())
}
