//! Sheets, maps and numbers at the limits.

use super::Outcome;
use crate::agreement::compare::Table;
use crate::answer::{Answer, Refusal};
use crate::desk::{After, Call, Desk};
use crate::draw::Draw;
use crate::generator;
use crate::sheet::{
    MOST_ATOMS, MOST_BYTES, MOST_NUMBER, MOST_RULES, MOST_WEIGHT, Sheet, basic, bytes_of, choice, constraint, weight,
};

/// What stands at a limit, just below and just above it.
pub const LIMITS: [fn(&Desk) -> Outcome; 12] = [
    wide_numbers,
    map_length,
    rule_count,
    atom_count,
    weight_and_bound,
    greatest_bound,
    widest_margins,
    longest_bodies,
    longest_chain,
    most_repeats,
    deepest_search,
    sheet_length,
];

/// The limit with the seed as its index.
pub fn limits(desk: &Desk, seed: u64) -> Outcome {
    match LIMITS.get(seed as usize) {
        Some(limit) => limit(desk),
        None => Ok(()),
    }
}

/// Every call on a sheet with an unread map of the longest length.
fn on_long_map(desk: &Desk, sheet: &[u8]) -> Outcome {
    let table = Table { desk, sheet };
    for call in [Call::Check, Call::Open, Call::Solve, Call::Test, Call::Margin { rule: 1 }] {
        table.same(call, &[1; MOST_ATOMS])?;
    }
    table.same(Call::Pin { atom: MOST_ATOMS as u64, side: 2 }, &[0; MOST_ATOMS])?;
    table.same(Call::Rule { rule: 1, part: 1, index: 0 }, &[])?;
    Ok(())
}

fn sheet_length(desk: &Desk) -> Outcome {
    let mut draw = Draw::new("sheet length", 0);
    for length in [MOST_BYTES - 1, MOST_BYTES] {
        on_long_map(desk, &generator::sheet_of_length(&mut draw, length).bytes())?;
    }
    let mut longer = generator::sheet_of_length(&mut draw, MOST_BYTES).bytes();
    longer.push(0);
    on_long_map(desk, &longer)?;
    for byte in [0, 1, 0x80, 0xff] {
        for length in [MOST_BYTES, MOST_BYTES + 1, 2 * MOST_BYTES] {
            on_long_map(desk, &vec![byte; length])?;
        }
    }
    Ok(())
}

fn atom_count(desk: &Desk) -> Outcome {
    for atoms in [0, 1, 127, 128, 511, 512, 513, 640, 16_384] {
        let rules = if atoms == 0 { vec![] } else { vec![choice(&[atoms], &[], &[])] };
        on_long_map(desk, &Sheet { atoms, rules, ..Sheet::default() }.bytes())?;
    }
    Ok(())
}

fn rule_count(desk: &Desk) -> Outcome {
    for rules in [MOST_RULES - 1, MOST_RULES, MOST_RULES + 1] {
        let rules = vec![basic(1, &[], &[]); rules];
        let sheet = Sheet { atoms: 1, rules, ..Sheet::default() }.bytes();
        on_long_map(desk, &sheet)?;
        for rule in [0, 2047, 2048, 2049] {
            Table { desk, sheet: &sheet }.same(Call::Margin { rule }, &[0])?;
            Table { desk, sheet: &sheet }.same(Call::Rule { rule, part: 3, index: 0 }, &[])?;
        }
    }
    Ok(())
}

/// Two literals of one weight, and bounds up to their sum and above it.
fn weight_and_bound(desk: &Desk) -> Outcome {
    for one in [0, 1, 127, 128, MOST_WEIGHT - 1, MOST_WEIGHT, MOST_WEIGHT + 1, MOST_NUMBER] {
        for bound in [0, 1, one, 2 * one, 2 * one + 1, MOST_NUMBER - 1, MOST_NUMBER] {
            let rules = vec![weight(1, bound, &[(1, one)], &[(1, one)])];
            on_long_map(desk, &Sheet { atoms: 1, rules, ..Sheet::default() }.bytes())?;
        }
    }
    // A number above all numbers: five bytes.
    on_long_map(desk, &bytes_of(&[1, 1, 1, 2, 1, MOST_NUMBER + 1, 0, 0, 0, 0]))
}

/// The greatest number as a bound, over weights that sum to one less, to as
/// much, and to one more.
fn greatest_bound(desk: &Desk) -> Outcome {
    let accepted = Answer::Accepted { atoms: MOST_ATOMS, rules: 1 };
    let dead = Answer::Refused(Refusal { number: 16, place: 6 });
    for (last, answer) in [(435_454, dead), (435_455, accepted), (435_456, accepted)] {
        let positive = (1..=200).map(|atom| (atom, MOST_WEIGHT)).collect::<Vec<_>>();
        let mut negative = (1..=68).map(|atom| (atom, MOST_WEIGHT)).collect::<Vec<_>>();
        negative.push((MOST_ATOMS, last));
        let rules = vec![weight(1, MOST_NUMBER, &positive, &negative)];
        let sheet = Sheet { atoms: MOST_ATOMS, rules, ..Sheet::default() }.bytes();
        let wanted = After { code: answer.code(), map: Vec::new() };
        Table { desk, sheet: &sheet }.answers(Call::Check, &[], &wanted)?;
        on_long_map(desk, &sheet)?;
    }
    Ok(())
}

/// The paper's extremes: 1,024,000,000 with nothing decided and nothing
/// needed, and -268,435,455 with the greatest bound and every literal false.
fn widest_margins(desk: &Desk) -> Outcome {
    let all = (1..=MOST_ATOMS).map(|atom| (atom, MOST_WEIGHT)).collect::<Vec<_>>();
    let rules = vec![weight(1, 0, &all, &all), weight(1, MOST_NUMBER, &all, &[])];
    let sheet = Sheet { atoms: MOST_ATOMS, rules, ..Sheet::default() }.bytes();
    let table = Table { desk, sheet: &sheet };
    for (rule, side, margin) in [(1, 0, 1_024_000_000), (2, 2, -268_435_455)] {
        let map = vec![side; MOST_ATOMS];
        let wanted = After { code: Answer::Margin(margin).code(), map: map.clone() };
        table.answers(Call::Margin { rule }, &map, &wanted)?;
    }
    on_long_map(desk, &sheet)
}

/// A guess for each of 512 atoms: all may be taken; and 511 may be taken, but not all of them.
fn deepest_search(desk: &Desk) -> Outcome {
    let all = (1..=MOST_ATOMS).collect::<Vec<_>>();
    let (last, others) = (MOST_ATOMS, &all[..MOST_ATOMS - 1]);
    let free = vec![choice(&all, &[], &[])];
    let not_all = vec![choice(others, &[], &[]), basic(last, others, &[last])];
    for (rules, taken) in [(free, MOST_ATOMS), (not_all, MOST_ATOMS - 2)] {
        let sheet = Sheet { atoms: MOST_ATOMS, rules, ..Sheet::default() }.bytes();
        let map = all.iter().map(|&atom| if atom <= taken { 1 } else { 2 }).collect();
        let wanted = After { code: Answer::Model.code(), map };
        Table { desk, sheet: &sheet }.answers(Call::Solve, &[0; MOST_ATOMS], &wanted)?;
    }
    Ok(())
}

fn longest_bodies(desk: &Desk) -> Outcome {
    let all = (1..=MOST_ATOMS).collect::<Vec<_>>();
    let kinds = [
        basic(1, &all, &all),
        choice(&all, &all[1..], &[]),
        choice(&all, &[], &[]),
        constraint(1, 512, &all, &all),
        constraint(1, 513, &all, &all),
        constraint(1, 1024, &all, &all),
    ];
    let sheet = Sheet { atoms: MOST_ATOMS, rules: kinds.to_vec(), compute_in: all.clone(), compute_out: vec![] };
    on_long_map(desk, &sheet.bytes())?;
    let dead = [&kinds[..], &[constraint(1, 1025, &all, &all)]].concat();
    on_long_map(desk, &Sheet { rules: dead, ..sheet.clone() }.bytes())?;
    on_long_map(desk, &Sheet { compute_in: vec![], compute_out: all, ..sheet }.bytes())
}

fn map_length(desk: &Desk) -> Outcome {
    for atoms in [0, 1, 2, 128, 512] {
        let all = (1..=atoms).collect::<Vec<_>>();
        let rules = if atoms == 0 { vec![] } else { vec![choice(&all, &[], &[])] };
        let sheet = Sheet { atoms, rules, ..Sheet::default() }.bytes();
        for length in [0, atoms.saturating_sub(1), atoms, atoms + 1, atoms + 700] {
            for byte in [0, 1, 2, 3, 4, 255] {
                lent_lengths(&Table { desk, sheet: &sheet }, &vec![byte; length])?;
            }
        }
    }
    Ok(())
}

fn lent_lengths(table: &Table, map: &[u8]) -> Outcome {
    for call in [Call::Open, Call::Solve, Call::Test] {
        table.same(call, map)?;
    }
    // The order of refusals: 10 before 11, 11 before 12; 10, 13, 12, 14.
    for atom in [0, 1, 512, 513] {
        for side in [0, 1, 2, 3] {
            table.same(Call::Pin { atom, side }, map)?;
        }
    }
    for rule in [0, 1, 2] {
        table.same(Call::Margin { rule }, map)?;
    }
    Ok(())
}

/// Numbers that are small when their top is cut off.
fn wide_numbers(desk: &Desk) -> Outcome {
    let sheet = Sheet { atoms: 3, rules: vec![choice(&[1, 2, 3], &[], &[1, 2])], ..Sheet::default() }.bytes();
    let table = Table { desk, sheet: &sheet };
    for top in [0, 1 << 8, 1 << 9, 1 << 11, 1 << 16, 1 << 31, 1 << 32, 1 << 40, 1 << 63] {
        for low in [0, 1, 2, 3, 4] {
            let wide = top + low;
            table.same(Call::Pin { atom: wide, side: 1 }, &[0; 3])?;
            table.same(Call::Pin { atom: 1, side: wide }, &[0; 3])?;
            table.same(Call::Margin { rule: wide }, &[0; 3])?;
            for (rule, part, index) in [(wide, 0, 0), (1, wide, 0), (1, 3, wide), (1, 8, wide), (1, 9, wide)] {
                table.same(Call::Rule { rule, part, index }, &[])?;
            }
        }
    }
    table.same(Call::Pin { atom: u64::MAX, side: u64::MAX }, &[0; 3]).map(drop)
}

/// 512 atoms that follow one from another, from the last to the first; and
/// 512 that hold each other up in a ring and nothing else.
fn longest_chain(desk: &Desk) -> Outcome {
    let fact = basic(MOST_ATOMS, &[], &[]);
    let links = (1..MOST_ATOMS).map(|atom| basic(atom, &[atom + 1], &[])).collect::<Vec<_>>();
    let close = basic(MOST_ATOMS, &[1], &[]);
    for last in [fact, close] {
        let rules = [&links[..], &[last]].concat();
        on_long_map(desk, &Sheet { atoms: MOST_ATOMS, rules, ..Sheet::default() }.bytes())?;
    }
    Ok(())
}

/// As many copies of a rule as there can be, and two of the longest rules: if
/// the last of them is the same, the body is forced, and if it differs,
/// nothing is.
fn most_repeats(desk: &Desk) -> Outcome {
    let long = |last: u32| {
        let weighed = (2..=MOST_ATOMS).map(|atom| (atom, if atom == MOST_ATOMS { last } else { 1 }));
        weight(1, MOST_ATOMS as u32 - 1, &weighed.collect::<Vec<_>>(), &[])
    };
    let copies = vec![basic(1, &[2], &[]); MOST_RULES - 2];
    let cases = [
        (2, copies.clone(), basic(1, &[2], &[]), 1),
        (2, copies, constraint(1, 1, &[2], &[]), 0),
        (MOST_ATOMS, vec![long(1)], long(1), MOST_ATOMS - 1),
        (MOST_ATOMS, vec![long(1)], long(2), 0),
    ];
    for (atoms, rules, last, forced) in cases {
        let free = choice(&(2..=atoms).collect::<Vec<_>>(), &[], &[]);
        let rules = [vec![free], rules, vec![last]].concat();
        let sheet = Sheet { atoms, rules, compute_in: vec![1], compute_out: vec![] }.bytes();
        let mut map = vec![0; atoms];
        map[..=forced].fill(1);
        let wanted = After { code: Answer::Closed { undecided: atoms - 1 - forced }.code(), map };
        Table { desk, sheet: &sheet }.answers(Call::Open, &vec![9; atoms], &wanted)?;
        on_long_map(desk, &sheet)?;
    }
    Ok(())
}
