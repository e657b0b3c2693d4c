//! Two sheets with the same rules, in another order and with other repeats.

use super::Outcome;
use super::definitions::{over_all_maps, over_all_subsets};
use super::orders::ends_alike;
use super::parts::every_part_of;
use crate::agreement::compare::{Disagreement, Table};
use crate::answer::{Answer, Refusal};
use crate::definition;
use crate::desk::{After, Call, Desk};
use crate::draw::Draw;
use crate::generator;
use crate::repeats::{large_sheet, same_rules, sheet};
use crate::sheet::Sheet;

/// Every call answers alike on two sheets of which each rule of one stands on
/// the other, but rules are numbered as they stand; and as the definitions
/// say, where the sheets are small.
pub fn repeats(desk: &Desk, seed: u64) -> Outcome {
    let mut draw = Draw::new("repeats", seed);
    let size = generator::size(&mut draw);
    let one = if seed % 200 == 199 { large_sheet(&mut draw) } else { sheet(&mut draw, size) };
    let other = same_rules(&mut draw, &one);
    let bytes = [one.bytes(), other.bytes()];
    let tables = bytes.each_ref().map(|sheet| Table { desk, sheet });
    calls_alike(&tables, &one, &mut draw)?;
    ends_alike(&tables, one.atoms, &mut draw)?;
    rules_as_they_stand(&tables[1], &other, &mut draw)?;
    if one.atoms > definition::MOST_ATOMS_FOR_MAPS {
        return Ok(());
    }
    over_all_maps(&tables[1], &other, &mut draw)?;
    over_all_subsets(&tables[1], &other, &mut draw)
}

/// Open, solve, and then pins, each followed by test.
fn calls_alike(tables: &[Table; 2], sheet: &Sheet, draw: &mut Draw) -> Outcome {
    let mut map = alike(tables, Call::Open, &generator::map(draw, sheet.atoms))?.map;
    if tables[0].solves_soon() {
        let model = alike(tables, Call::Solve, &generator::map(draw, sheet.atoms))?.map;
        alike(tables, Call::Test, &model)?;
    }
    for _ in 0..draw.between(1, 4) {
        let pin = drawn_pin(draw, sheet);
        map = alike(tables, pin, &map)?.map;
        alike(tables, Call::Test, &map)?;
        alike(tables, pin, &generator::map(draw, sheet.atoms))?;
    }
    alike(tables, Call::Test, &generator::map(draw, sheet.atoms)).map(drop)
}

/// A head to be in, for which rule 2 asks for a reason; or any pin.
fn drawn_pin(draw: &mut Draw, sheet: &Sheet) -> Call {
    if sheet.rules.is_empty() || draw.chance(1, 3) {
        return Call::Pin { atom: generator::atom(draw, sheet.atoms), side: generator::side(draw) };
    }
    let rule = &sheet.rules[draw.below(sheet.rules.len())];
    Call::Pin { atom: draw.pick(&rule.heads) as u64, side: 1 }
}

/// Makes a call on the desk and on plain, with both sheets: all must answer
/// alike and leave the same bytes.
fn alike(tables: &[Table; 2], call: Call, map: &[u8]) -> Result<After, Disagreement> {
    let after = tables[0].same(call, map)?;
    tables[1].answers(call, map, &after)?;
    Table { desk: &Desk::PLAIN, ..tables[1] }.answers(call, map, &after)?;
    Ok(after)
}

/// The last rule and some others by number, and the numbers that no rule has.
fn rules_as_they_stand(table: &Table, sheet: &Sheet, draw: &mut Draw) -> Outcome {
    let count = sheet.rules.len();
    let map = (0..sheet.atoms).map(|_| draw.pick(&[0, 1, 2])).collect::<Vec<u8>>();
    let answered = |answer: Answer| After { code: answer.code(), map: map.clone() };
    table.answers(Call::Check, &map, &answered(Answer::Accepted { atoms: sheet.atoms, rules: count }))?;
    let missing = Answer::Refused(Refusal { number: 13, place: 0 });
    for rule in [0, count as u64 + 1] {
        table.answers(Call::Margin { rule }, &map, &answered(missing))?;
        table.answers(Call::Rule { rule, part: 0, index: 0 }, &map, &answered(missing))?;
    }
    for number in [count, draw.between(0, count), draw.between(0, count)] {
        if number > 0 {
            let rule = &sheet.rules[number - 1];
            let margin = Answer::Margin(definition::margin(rule, &map));
            table.answers(Call::Margin { rule: number as u64 }, &map, &answered(margin))?;
            every_part_of(table, number as u64, rule)?;
        }
    }
    Ok(())
}
