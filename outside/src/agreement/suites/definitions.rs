//! Small sheets against the paper's definitions.

use super::Outcome;
use crate::agreement::compare::Table;
use crate::answer::Answer;
use crate::definition;
use crate::desk::{After, Call, Desk};
use crate::draw::Draw;
use crate::generator::{self, Size};
use crate::sheet::Sheet;

/// Sheets of up to 12 atoms against all subsets: solve finds the first
/// agreeing stable model, test says yes of exactly these, and open and pin
/// lose none of them.
pub fn subsets(desk: &Desk, seed: u64) -> Outcome {
    let mut draw = Draw::new("subsets", seed);
    let atoms = if seed.is_multiple_of(5) { definition::MOST_ATOMS_FOR_SUBSETS } else { 8 };
    let sheet = generator::sheet(&mut draw, Size { atoms, rules: 2 * atoms, body: 3 });
    over_all_subsets(&Table { desk, sheet: &sheet.bytes() }, &sheet, &mut draw)
}

/// Solve, test, open and pin on a small sheet against all subsets.
pub fn over_all_subsets(table: &Table, sheet: &Sheet, draw: &mut Draw) -> Outcome {
    let models = models_as_maps(sheet);
    solve_is_first(table, &models, sheet.atoms)?;
    test_is_membership(table, &models, sheet.atoms)?;
    forcing_keeps_models(table, &models, sheet.atoms, draw)
}

/// The agreeing stable models of a small sheet as maps, in order.
fn models_as_maps(sheet: &Sheet) -> Vec<Vec<u8>> {
    definition::models(sheet).into_iter().map(|set| definition::map_of(set, sheet.atoms)).collect()
}

fn solve_is_first(table: &Table, models: &[Vec<u8>], atoms: usize) -> Outcome {
    let wanted = match models.first() {
        Some(first) => After { code: Answer::Model.code(), map: first.clone() },
        None => After { code: Answer::NoModel.code(), map: vec![3; atoms] },
    };
    table.answers(Call::Solve, &vec![7; atoms], &wanted)
}

fn test_is_membership(table: &Table, models: &[Vec<u8>], atoms: usize) -> Outcome {
    let mut left = models.iter().peekable();
    for set in definition::subsets_in_order(atoms) {
        let map = definition::map_of(set, atoms);
        let is_model = left.next_if(|model| **model == map).is_some();
        let answer = if is_model { Answer::Yes } else { Answer::No };
        table.answers(Call::Test, &map, &After { code: answer.code(), map: map.clone() })?;
    }
    Ok(())
}

/// A closed map holds no more than every model above the old map holds, a
/// contradiction has no model above it, and a decided map is a model.
fn forcing_keeps_models(table: &Table, models: &[Vec<u8>], atoms: usize, draw: &mut Draw) -> Outcome {
    let mut map = table.made(Call::Open, &vec![7; atoms])?.map;
    keeps(table, Call::Open, &vec![7; atoms], &map, models)?;
    for _ in 0..3 {
        if atoms == 0 || map[0] == 3 {
            break;
        }
        let (atom, side) = (draw.between(1, atoms), draw.between(1, 2));
        let call = Call::Pin { atom: atom as u64, side: side as u64 };
        let after = table.made(call, &map)?.map;
        let held = models.iter().filter(|model| definition::holds_map(&map, model));
        let above = held.filter(|model| model[atom - 1] == side as u8).cloned().collect::<Vec<_>>();
        keeps(table, call, &map, &after, &above)?;
        map = after;
    }
    Ok(())
}

fn keeps(table: &Table, call: Call, before: &[u8], after: &[u8], models: &[Vec<u8>]) -> Outcome {
    let contradiction = after.first() == Some(&3);
    if contradiction && !models.is_empty() {
        return Err(table.disagreement(call, before, "a contradiction where there is a model"));
    }
    if !contradiction && !models.iter().all(|model| definition::holds_map(after, model)) {
        return Err(table.disagreement(call, before, "a map that a model does not hold"));
    }
    if !contradiction && !after.contains(&0) && !models.contains(&after.to_vec()) {
        return Err(table.disagreement(call, before, "a decided map that is no model"));
    }
    Ok(())
}

/// Sheets of up to 5 atoms against all maps: open and pin leave the smallest
/// closed map by the paper's definition, and margins are reach less need.
pub fn closed_maps(desk: &Desk, seed: u64) -> Outcome {
    let mut draw = Draw::new("closed maps", seed);
    let atoms = definition::MOST_ATOMS_FOR_MAPS;
    let sheet = generator::sheet(&mut draw, Size { atoms, rules: 9, body: 3 });
    over_all_maps(&Table { desk, sheet: &sheet.bytes() }, &sheet, &mut draw)
}

/// Open, pin and margin on a small sheet against all maps.
pub fn over_all_maps(table: &Table, sheet: &Sheet, draw: &mut Draw) -> Outcome {
    let opened = match compute_map(sheet) {
        Some(base) => definition::smallest_closed_map(sheet, &base),
        None => None,
    };
    table.answers(Call::Open, &vec![7; sheet.atoms], &closed_answer(opened, sheet.atoms))?;
    if sheet.atoms == 0 {
        return Ok(());
    }
    for _ in 0..4 {
        pin_is_smallest(table, sheet, draw)?;
    }
    margins_are_reach_less_need(table, sheet, draw)
}

fn pin_is_smallest(table: &Table, sheet: &Sheet, draw: &mut Draw) -> Outcome {
    let map = (0..sheet.atoms).map(|_| draw.pick(&[0, 0, 0, 1, 2])).collect::<Vec<u8>>();
    let (atom, side) = (draw.between(1, sheet.atoms), draw.between(1, 2));
    let mut base = map.clone();
    let opposed = base[atom - 1] != 0 && base[atom - 1] != side as u8;
    base[atom - 1] = side as u8;
    let after = if opposed { None } else { definition::smallest_closed_map(sheet, &base) };
    let call = Call::Pin { atom: atom as u64, side: side as u64 };
    table.answers(call, &map, &closed_answer(after, sheet.atoms))
}

fn margins_are_reach_less_need(table: &Table, sheet: &Sheet, draw: &mut Draw) -> Outcome {
    let map = (0..sheet.atoms).map(|_| draw.pick(&[0, 1, 2])).collect::<Vec<u8>>();
    for (index, rule) in sheet.rules.iter().enumerate() {
        let code = Answer::Margin(definition::margin(rule, &map)).code();
        let call = Call::Margin { rule: index as u64 + 1 };
        table.answers(call, &map, &After { code, map: map.clone() })?;
    }
    Ok(())
}

/// The map of the compute lists, if they share no atom.
fn compute_map(sheet: &Sheet) -> Option<Vec<u8>> {
    let mut map = vec![0; sheet.atoms];
    for &atom in &sheet.compute_in {
        map[atom - 1] = 1;
    }
    for &atom in &sheet.compute_out {
        if map[atom - 1] == 1 {
            return None;
        }
        map[atom - 1] = 2;
    }
    Some(map)
}

fn closed_answer(map: Option<Vec<u8>>, atoms: usize) -> After {
    match map {
        Some(map) => {
            let undecided = map.iter().filter(|&&side| side == 0).count();
            After { code: Answer::Closed { undecided }.code(), map }
        }
        None => After { code: Answer::Contradiction.code(), map: vec![3; atoms] },
    }
}
