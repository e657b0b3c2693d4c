//! Desks that are wrong in one way each. Every one of them must be caught by
//! the suites named beside it, so that each suite is seen to fail.

use outside::agreement::{SUITES, Suite, hold_seeds};
use outside::answer::{Answer, Refusal};
use outside::cases;
use outside::desk::{Desk, lent, lent_mut};
use outside::for_c;
use outside::plain;
use outside::plain::forcing::{BothWays, Program, close, hold};
use outside::plain::meaning::{meets, reach, sure};
use outside::plain::reader::read_sheet;
use outside::plain::search::{first_model_within, opened};
use outside::repeats::{Near, different};
use outside::sheet::{Kind, Literal, Rule, Sheet};

/// A wrong desk and the suites that must notice it.
struct Wrong {
    desk: Desk,
    caught_by: &'static [&'static str],
}

/// Makes open and pin take such rules for repeats.
macro_rules! take_for_repeats {
    ($like:ident) => {
        &|desk: &mut Desk| {
            desk.open = for_c!(open open_taking::<$like>);
            desk.pin = for_c!(pin pin_taking::<$like>);
        }
    };
}

fn wrong_desks() -> Vec<Wrong> {
    let plain = Desk::PLAIN;
    let wrong = |name, caught_by: &'static [&'static str], change: &dyn Fn(&mut Desk)| {
        let mut desk = Desk { name, ..plain };
        change(&mut desk);
        Wrong { desk, caught_by }
    };
    vec![
        wrong("refuses all sheets", &["well formed", "large", "limits", "any bytes"], &|desk| {
            desk.check = for_c!(check refuse_all);
        }),
        wrong("accepts damaged lists", &["damaged", "any bytes"], &|desk| desk.check = for_c!(check accept_unordered)),
        wrong("looks at the length last", &["limits"], &|desk| desk.check = for_c!(check check_length_last)),
        wrong("places 1 at the last byte", &["short strings", "damaged", "any bytes"], &|desk| {
            desk.check = for_c!(check check_misplaced);
        }),
        wrong("takes 128 for one byte", &["one byte", "large"], &|desk| {
            desk.check = for_c!(check check_128_straight);
        }),
        wrong("gives 15 for padding", &["long numbers", "short strings", "damaged"], &|desk| {
            desk.check = for_c!(check check_padding_as_size);
        }),
        wrong("gives 2 for size", &["long numbers", "damaged"], &|desk| {
            desk.solve = for_c!(solve solve_size_as_padding);
        }),
        wrong("places 15 at the fourth byte", &["long numbers", "damaged"], &|desk| {
            desk.check = for_c!(check check_fourth_byte);
        }),
        wrong("places 16 at the kind", &["bounds", "damaged"], &|desk| desk.check = for_c!(check check_at_kind)),
        wrong("refuses a bound equal to the sum", &["bounds", "well formed", "large", "limits"], &|desk| {
            desk.check = for_c!(check check_equal_as_dead);
        }),
        wrong("sums the positive weights only", &["bounds", "well formed", "large", "limits"], &|desk| {
            desk.check = for_c!(check check_positive_sum);
        }),
        wrong("gives 16 before a later fault of the rule", &["bounds", "damaged"], &|desk| {
            desk.check = for_c!(check check_dead_first);
        }),
        wrong("looks at bounds last", &["bounds", "damaged"], &|desk| desk.check = for_c!(check check_dead_last)),
        wrong("rule takes dead bounds", &["bounds", "damaged"], &|desk| desk.rule = for_c!(rule rule_of_dead)),
        wrong("reads past the end", &["damaged", "any bytes", "short strings"], &|desk| desk.check = check_beyond),
        wrong("writes on a refusal", &["short strings", "damaged", "limits"], &|desk| {
            desk.open = for_c!(open open_and_clear)
        }),
        wrong("always none", &["well formed", "large", "limits", "subsets"], &|desk| {
            desk.solve = for_c!(solve solve_none)
        }),
        wrong("last model first", &["well formed", "subsets"], &|desk| desk.solve = for_c!(solve solve_last)),
        wrong("open forces nothing", &["well formed", "limits", "closed maps", "pin walks"], &|desk| {
            desk.open = for_c!(open open_unforced);
        }),
        wrong("open looks at each rule once", &["well formed", "closed maps", "shuffled"], &|desk| {
            desk.open = for_c!(open open_single_pass);
        }),
        wrong("open guesses at once", &["well formed", "subsets", "closed maps"], &|desk| {
            desk.open = for_c!(open open_guessing);
            desk.pin = for_c!(pin pin_nothing);
        }),
        wrong("open reads the old map", &["well formed", "pin walks", "large"], &|desk| {
            desk.open = for_c!(open open_if_zero)
        }),
        wrong("open forgets the compute lists", &["well formed", "closed maps", "pin walks"], &|desk| {
            desk.open = for_c!(open open_without_compute);
        }),
        wrong("a choice forces its heads", &["well formed", "subsets", "closed maps"], &|desk| {
            desk.open = for_c!(open open_choices_as_basic);
        }),
        wrong("the first of two reasons forces", &["well formed", "closed maps", "pin walks"], &|desk| {
            desk.pin = for_c!(pin pin_first_reason);
        }),
        wrong("pin forces nothing", &["well formed", "closed maps", "pin walks"], &|desk| {
            desk.pin = for_c!(pin pin_unforced);
        }),
        wrong("pin does nothing", &["well formed", "closed maps", "pin walks", "limits"], &|desk| {
            desk.pin = for_c!(pin pin_nothing);
        }),
        wrong("pin leaves on the last pin's side", &["shuffled", "pin walks", "closed maps"], &|desk| {
            desk.pin = for_c!(pin pin_overwriting);
        }),
        wrong("pin cuts numbers to 32 bits", &["limits", "well formed"], &|desk| desk.pin = for_c!(pin pin_cut)),
        wrong("counts the decided atoms", &["well formed", "closed maps", "pin walks", "large"], &|desk| {
            desk.open = for_c!(open open_counting_decided);
        }),
        wrong("half a map with a contradiction", &["well formed", "closed maps", "pin walks"], &|desk| {
            desk.pin = for_c!(pin pin_half_written);
        }),
        wrong("contradiction past the atoms", &["well formed", "pin walks", "limits"], &|desk| {
            desk.pin = for_c!(pin pin_filling_all);
        }),
        wrong("writes beside the map", &["well formed", "large", "limits", "subsets"], &|desk| {
            desk.solve = solve_one_too_many;
        }),
        wrong("test takes every set closed under the rules", &["subsets", "well formed"], &|desk| {
            desk.test = for_c!(test test_satisfying);
        }),
        wrong("test forgets the compute lists", &["subsets", "well formed"], &|desk| {
            desk.test = for_c!(test test_without_compute);
        }),
        wrong("test takes 3 for an answer", &["well formed", "limits"], &|desk| {
            desk.test = for_c!(test test_no_on_three)
        }),
        wrong("margins end at zero", &["well formed", "limits", "closed maps", "pin walks"], &|desk| {
            desk.margin = for_c!(margin margin_from_zero);
        }),
        wrong("margin before its order", &["well formed", "limits"], &|desk| {
            desk.margin = for_c!(margin margin_twelve_first)
        }),
        wrong("parts counted from 1", &["well formed", "limits"], &|desk| desk.rule = for_c!(rule rule_from_one)),
        wrong("parts above 9 refused", &["well formed", "limits"], &|desk| desk.rule = for_c!(rule rule_refusing)),
        wrong("open counts every repeat", &["repeats", "well formed", "closed maps", "pin walks", "limits"], &|desk| {
            desk.open = for_c!(open open_counting_repeats);
        }),
        wrong("pin counts every repeat", &["repeats", "well formed", "closed maps", "pin walks"], &|desk| {
            desk.pin = for_c!(pin pin_counting_repeats);
        }),
        wrong("sees a repeat only after its like", &["repeats", "closed maps", "pin walks"], &|desk| {
            desk.pin = for_c!(pin pin_comparing_neighbours);
        }),
        wrong("takes other weights for a repeat", &["repeats", "limits"], take_for_repeats!(WEIGHT)),
        wrong("takes another kind for a repeat", &["repeats", "limits"], take_for_repeats!(KIND)),
        wrong("takes another head for a repeat", &["repeats"], take_for_repeats!(HEAD)),
        wrong("takes another need for a repeat", &["repeats"], take_for_repeats!(NEED)),
        wrong("takes another atom for a repeat", &["repeats"], take_for_repeats!(ATOM)),
        wrong("takes another sign for a repeat", &["repeats"], take_for_repeats!(SIGN)),
        wrong("compares the first numbers only", &["repeats", "limits"], take_for_repeats!(FIRST_NUMBERS)),
        wrong("check counts no repeats", &["repeats", "well formed", "limits"], &|desk| {
            desk.check = for_c!(check check_without_repeats);
        }),
        wrong("margin counts no repeats", &["repeats", "well formed", "closed maps", "pin walks"], &|desk| {
            desk.margin = for_c!(margin margin_without_repeats);
        }),
        wrong("rule counts no repeats", &["repeats", "well formed", "limits"], &|desk| {
            desk.rule = for_c!(rule rule_without_repeats);
        }),
    ]
}

/// What a wrong desk takes for a repeat: a near-repeat, by its place in
/// [`Near::ALL`], or a rule that is equal in its first numbers.
const WEIGHT: usize = Near::Weight as usize;
const KIND: usize = Near::Kind as usize;
const HEAD: usize = Near::Head as usize;
const NEED: usize = Near::Need as usize;
const ATOM: usize = Near::Atom as usize;
const SIGN: usize = Near::Sign as usize;
const FIRST_NUMBERS: usize = Near::ALL.len();

fn suite(name: &str) -> &'static Suite {
    SUITES.iter().find(|suite| suite.name == name).expect("a suite has this name")
}

#[test]
fn every_wrong_desk_is_caught_by_each_suite_that_should() {
    for wrong in wrong_desks() {
        for name in wrong.caught_by {
            let suite = suite(name);
            let start = std::time::Instant::now();
            let found = hold_seeds(&wrong.desk, suite, 0..suite.seeds);
            let message = found.expect_err(&format!("{}: not caught by {name}", wrong.desk.name)).to_string();
            assert!(message.contains("seed ") && message.contains("sheet  "), "{message}");
            println!("{}: caught by {name} in {:.1?}", wrong.desk.name, start.elapsed());
        }
    }
}

#[test]
fn every_suite_catches_a_wrong_desk() {
    let wrong = wrong_desks();
    for suite in &SUITES {
        assert!(wrong.iter().any(|wrong| wrong.caught_by.contains(&suite.name)), "{}", suite.name);
    }
}

#[test]
fn the_papers_cases_catch_the_wrong_versions_it_names() {
    let named = [
        "refuses all sheets",
        "always none",
        "open forces nothing",
        "pin forces nothing",
        "pin does nothing",
        "open guesses at once",
        "counts the decided atoms",
    ];
    named.into_iter().for_each(caught_by_the_cases);
}

#[test]
fn the_cases_of_bounds_catch_every_wrong_look_at_them() {
    let named = [
        "places 16 at the kind",
        "refuses a bound equal to the sum",
        "sums the positive weights only",
        "gives 16 before a later fault of the rule",
        "looks at bounds last",
        "rule takes dead bounds",
    ];
    named.into_iter().for_each(caught_by_the_cases);
}

#[test]
fn the_cases_of_repeats_catch_every_wrong_count() {
    let named = [
        "open counts every repeat",
        "takes other weights for a repeat",
        "takes another kind for a repeat",
        "takes another head for a repeat",
        "takes another need for a repeat",
        "takes another atom for a repeat",
        "takes another sign for a repeat",
        "check counts no repeats",
        "margin counts no repeats",
        "rule counts no repeats",
    ];
    named.into_iter().for_each(caught_by_the_cases);
}

fn caught_by_the_cases(name: &str) {
    let wrong = wrong_desks();
    let wrong = wrong.iter().find(|wrong| wrong.desk.name == name).expect("a wrong desk has this name");
    assert!(cases::hold_all(&wrong.desk).is_err(), "{name}");
}

fn refuse_all(_: &[u8]) -> u64 {
    refused(1, 0)
}

fn accept_unordered(s: &[u8]) -> u64 {
    let code = plain::desk_check(s);
    if matches!(Answer::of_code(code), Some(Answer::Refused(Refusal { number: 7, .. }))) {
        return Answer::Accepted { atoms: s[1].into(), rules: s[2].into() }.code();
    }
    code
}

fn check_length_last(s: &[u8]) -> u64 {
    match plain::desk_check(&s[..s.len().min(65_536)]) {
        code if s.len() <= 65_536 || code >> 40 != 32 => code,
        _ => refused(9, 65_536),
    }
}

fn check_misplaced(s: &[u8]) -> u64 {
    let code = plain::desk_check(s);
    if code >> 40 == 1 && !s.is_empty() { code - 1 } else { code }
}

/// As if a first byte of 128 were a whole number: 128.
fn check_128_straight(s: &[u8]) -> u64 {
    let mut read = Vec::new();
    let mut rest = s;
    while let Some(&first) = rest.first() {
        let long = rest.iter().take_while(|&&byte| byte >= 128).count();
        let length = if first == 128 { 1 } else { rest.len().min(long + 1) };
        read.extend(&rest[..length]);
        if first == 128 {
            read.push(1);
        }
        rest = &rest[length..];
    }
    plain::desk_check(&read)
}

fn check_padding_as_size(s: &[u8]) -> u64 {
    renumbered(plain::desk_check(s), 2, 15)
}

fn solve_size_as_padding(s: &[u8], map: &mut [u8]) -> u64 {
    renumbered(plain::desk_solve(s, map), 15, 2)
}

/// The answer, with one refusal's number exchanged for another.
fn renumbered(code: u64, old: u8, new: u8) -> u64 {
    match Answer::of_code(code) {
        Some(Answer::Refused(Refusal { number, place })) if number == old => refused(new, place),
        _ => code,
    }
}

fn check_fourth_byte(s: &[u8]) -> u64 {
    let code = plain::desk_check(s);
    if code >> 40 == 15 { code + 3 } else { code }
}

/// The place of the first dead bound, where that is what refuses the sheet.
fn dead_bound(code: u64) -> Option<usize> {
    match Answer::of_code(code) {
        Some(Answer::Refused(Refusal { number: 16, place })) => Some(place),
        _ => None,
    }
}

fn check_at_kind(s: &[u8]) -> u64 {
    let code = plain::desk_check(s);
    let Some(place) = dead_bound(code) else { return code };
    let head = if s[place - 2] >= 128 { 2 } else { 1 };
    refused(16, place - head - 1)
}

/// Checks an accepted sheet again with its bounded rules changed.
fn check_changed(s: &[u8], change: impl Fn(&Rule) -> Rule) -> u64 {
    let Ok(sheet) = read_sheet(s) else { return plain::desk_check(s) };
    let is_bounded = |rule: &Rule| matches!(rule.kind, Kind::Constraint | Kind::Weight);
    let changed = |rule: &Rule| if is_bounded(rule) { change(rule) } else { rule.clone() };
    let rules = sheet.rules.iter().map(changed).collect();
    plain::desk_check(&Sheet { rules, ..sheet }.bytes())
}

fn check_equal_as_dead(s: &[u8]) -> u64 {
    check_changed(s, |rule| Rule { need: rule.need + u32::from(rule.need == rule.sum()), ..rule.clone() })
}

fn check_positive_sum(s: &[u8]) -> u64 {
    check_changed(s, |rule| Rule { negative: vec![], ..rule.clone() })
}

/// Takes what is wrong, and all that follows, for zeros, if a bound is dead
/// then.
fn check_dead_first(s: &[u8]) -> u64 {
    let code = plain::desk_check(s);
    let Some(Answer::Refused(Refusal { place, .. })) = Answer::of_code(code) else { return code };
    let filled = plain::desk_check(&[&s[..place], &[0; 1100]].concat());
    if dead_bound(filled).is_some() { filled } else { code }
}

/// Gives 16 only where nothing else is wrong.
fn check_dead_last(s: &[u8]) -> u64 {
    let code = plain::desk_check(s);
    let Some(place) = dead_bound(code) else { return code };
    let other = check_dead_last(&with_zero_at(s, place));
    if other >> 40 < 16 { other } else { code }
}

fn rule_of_dead(s: &[u8], rule: u64, part: u64, index: u64) -> u64 {
    let code = plain::desk_rule(s, rule, part, index);
    match dead_bound(code) {
        Some(place) => rule_of_dead(&with_zero_at(s, place), rule, part, index),
        None => code,
    }
}

/// The sheet with 0 for the number at a place.
fn with_zero_at(s: &[u8], place: usize) -> Vec<u8> {
    let more = s[place..].iter().take_while(|&&byte| byte >= 128).count();
    [&s[..place], &[0], &s[place + more + 1..]].concat()
}

/// Takes the eight bytes after the sheet for a part of it.
unsafe extern "C" fn check_beyond(s: *const u8, s_len: usize) -> u64 {
    match plain::desk_check(unsafe { lent(s, s_len) }) {
        // SAFETY: the caller keeps guard bytes there to see this.
        code if code >> 40 == 1 => plain::desk_check(unsafe { lent(s, s_len + 8) }),
        code => code,
    }
}

fn open_and_clear(s: &[u8], map: &mut [u8]) -> u64 {
    let code = plain::desk_open(s, map);
    if code >> 40 < 32 {
        map.fill(0);
    }
    code
}

fn solve_none(s: &[u8], map: &mut [u8]) -> u64 {
    let code = plain::desk_solve(s, map);
    if code != Answer::Model.code() {
        return code;
    }
    fill_atoms(s, map, 3);
    Answer::NoModel.code()
}

/// Finds a model by guessing every atom out first.
fn solve_last(s: &[u8], map: &mut [u8]) -> u64 {
    let code = plain::desk_solve(s, map);
    let Ok(sheet) = read_sheet(s) else { return code };
    if code != Answer::Model.code() {
        return code;
    }
    let mut least = sheet.clone();
    for atom in 1..=sheet.atoms {
        let mut without = least.clone();
        without.compute_out.push(atom);
        without.compute_out.sort_unstable();
        without.compute_out.dedup();
        let mut trial = map.to_vec();
        if plain::desk_solve(&without.bytes(), &mut trial) == code {
            map.copy_from_slice(&trial);
            least = without;
        }
    }
    code
}

fn open_unforced(s: &[u8], map: &mut [u8]) -> u64 {
    let code = plain::desk_open(s, map);
    let Ok(sheet) = read_sheet(s) else { return code };
    if code >> 40 != 33 {
        return code;
    }
    fill_atoms(s, map, 0);
    for &atom in &sheet.compute_in {
        map[atom - 1] = 1;
    }
    for &atom in &sheet.compute_out {
        map[atom - 1] = 2;
    }
    closed(&map[..sheet.atoms])
}

/// Forces heads in one pass over the rules, and nothing else.
fn open_single_pass(s: &[u8], map: &mut [u8]) -> u64 {
    let code = open_unforced(s, map);
    let Ok(sheet) = read_sheet(s) else { return code };
    if code >> 40 != 33 {
        return code;
    }
    for rule in sheet.rules.iter().filter(|rule| !rule.is_choice()) {
        if meets(rule, sure(rule, map)) {
            map[rule.heads[0] - 1] = 1;
        }
    }
    closed(&map[..sheet.atoms])
}

fn open_guessing(s: &[u8], map: &mut [u8]) -> u64 {
    let code = plain::desk_open(s, map);
    let Ok(sheet) = read_sheet(s) else { return code };
    match first_model_within(&Program::of(&sheet), 100) {
        Ok(Some(model)) if code >> 40 == 33 => {
            map[..sheet.atoms].copy_from_slice(&model);
            Answer::Closed { undecided: 0 }.code()
        }
        _ => code,
    }
}

fn open_if_zero(s: &[u8], map: &mut [u8]) -> u64 {
    match map.iter().position(|&byte| byte != 0) {
        Some(place) if plain::desk_check(s) >> 40 == 32 => refused(12, place),
        _ => plain::desk_open(s, map),
    }
}

fn open_without_compute(s: &[u8], map: &mut [u8]) -> u64 {
    match read_sheet(s) {
        Ok(sheet) => plain::desk_open(&without_compute(sheet), map),
        Err(_) => plain::desk_open(s, map),
    }
}

fn open_choices_as_basic(s: &[u8], map: &mut [u8]) -> u64 {
    let Ok(sheet) = read_sheet(s) else { return plain::desk_open(s, map) };
    let as_basic = |rule: &Rule| -> Vec<Rule> {
        let one = |&head: &usize| Rule { kind: Kind::Basic, heads: vec![head], ..rule.clone() };
        if rule.is_choice() { rule.heads.iter().map(one).collect() } else { vec![rule.clone()] }
    };
    let rules = sheet.rules.iter().flat_map(as_basic).take(2048).collect();
    plain::desk_open(&Sheet { rules, ..sheet }.bytes(), map)
}

/// Pins an atom in as if only the first rule with that head could give it.
fn pin_first_reason(s: &[u8], map: &mut [u8], atom: u64, side: u64) -> u64 {
    let Ok(mut sheet) = read_sheet(s) else { return plain::desk_pin(s, map, atom, side) };
    let mut seen = false;
    sheet.rules.retain(|rule| {
        let again = seen && side == 1 && !rule.is_choice() && rule.heads[0] as u64 == atom;
        seen |= rule.heads.contains(&(atom as usize));
        !again
    });
    plain::desk_pin(&sheet.bytes(), map, atom, side)
}

fn pin_unforced(s: &[u8], map: &mut [u8], atom: u64, side: u64) -> u64 {
    let old = map.to_vec();
    let code = plain::desk_pin(s, map, atom, side);
    if code >> 40 != 33 {
        return code;
    }
    map.copy_from_slice(&old);
    map[atom as usize - 1] = side as u8;
    closed(&map[..atoms_of(s)])
}

fn pin_nothing(s: &[u8], map: &mut [u8], atom: u64, side: u64) -> u64 {
    let mut copy = map.to_vec();
    match plain::desk_pin(s, &mut copy, atom, side) {
        code if code >> 40 < 32 => code,
        _ => closed(&map[..atoms_of(s)]),
    }
}

/// Puts the atom on the new side whatever it was before.
fn pin_overwriting(s: &[u8], map: &mut [u8], atom: u64, side: u64) -> u64 {
    let mut copy = map.to_vec();
    let code = plain::desk_pin(s, &mut copy, atom, side);
    if code >> 40 >= 32 && map[0] != 3 {
        map[atom as usize - 1] = 0;
    }
    if code >> 40 < 32 { code } else { plain::desk_pin(s, map, atom, side) }
}

fn pin_cut(s: &[u8], map: &mut [u8], atom: u64, side: u64) -> u64 {
    plain::desk_pin(s, map, (atom as u32).into(), (side as u32).into())
}

fn open_counting_decided(s: &[u8], map: &mut [u8]) -> u64 {
    match Answer::of_code(plain::desk_open(s, map)) {
        Some(Answer::Closed { undecided }) => Answer::Closed { undecided: atoms_of(s) - undecided }.code(),
        other => other.expect("plain answers").code(),
    }
}

fn pin_half_written(s: &[u8], map: &mut [u8], atom: u64, side: u64) -> u64 {
    let old = map.to_vec();
    let code = plain::desk_pin(s, map, atom, side);
    if code == Answer::Contradiction.code() && old[0] != 3 {
        map.copy_from_slice(&old);
        map[atom as usize - 1] = side as u8;
    }
    code
}

fn pin_filling_all(s: &[u8], map: &mut [u8], atom: u64, side: u64) -> u64 {
    let code = plain::desk_pin(s, map, atom, side);
    if code == Answer::Contradiction.code() {
        map.fill(3);
    }
    code
}

/// Writes one byte past the end of the lent map.
unsafe extern "C" fn solve_one_too_many(s: *const u8, s_len: usize, map: *mut u8, map_len: usize) -> u64 {
    let code = unsafe { plain::desk_solve(lent(s, s_len), lent_mut(map, map_len)) };
    if code >> 40 >= 32 {
        // SAFETY: the caller keeps guard bytes there to see this.
        unsafe { *map.add(map_len) = 2 };
    }
    code
}

fn test_satisfying(s: &[u8], map: &[u8]) -> u64 {
    let code = plain::desk_test(s, map);
    match read_sheet(s) {
        Ok(sheet) if code == Answer::No.code() && satisfies(&sheet, map) => Answer::Yes.code(),
        _ => code,
    }
}

fn test_without_compute(s: &[u8], map: &[u8]) -> u64 {
    match read_sheet(s) {
        Ok(sheet) => plain::desk_test(&without_compute(sheet), map),
        Err(_) => plain::desk_test(s, map),
    }
}

fn test_no_on_three(s: &[u8], map: &[u8]) -> u64 {
    match plain::desk_test(s, map) {
        code if code >> 40 == 12 && map[0] == 3 => Answer::No.code(),
        code => code,
    }
}

fn margin_from_zero(s: &[u8], map: &[u8], rule: u64) -> u64 {
    match Answer::of_code(plain::desk_margin(s, map, rule)) {
        Some(Answer::Margin(margin)) => Answer::Margin(margin.max(0)).code(),
        other => other.expect("plain answers").code(),
    }
}

/// Looks at the map's bytes before the rule number.
fn margin_twelve_first(s: &[u8], map: &[u8], rule: u64) -> u64 {
    let code = plain::desk_margin(s, map, rule);
    match plain::desk_margin(s, map, 1) {
        other if code >> 40 == 13 && other >> 40 == 12 => other,
        _ => code,
    }
}

fn rule_from_one(s: &[u8], rule: u64, part: u64, index: u64) -> u64 {
    plain::desk_rule(s, rule, part, index.wrapping_sub(1))
}

fn rule_refusing(s: &[u8], rule: u64, part: u64, index: u64) -> u64 {
    let code = plain::desk_rule(s, rule, part, index);
    if part > 9 && code >> 40 == 41 { refused(13, 0) } else { code }
}

fn open_counting_repeats(s: &[u8], map: &mut [u8]) -> u64 {
    let code = plain::desk_open(s, map);
    match read_sheet(s) {
        Ok(sheet) if code >> 40 >= 32 => handed(opened(&Program::counting_repeats(&sheet)), &mut map[..sheet.atoms]),
        _ => code,
    }
}

fn pin_counting_repeats(s: &[u8], map: &mut [u8], atom: u64, side: u64) -> u64 {
    pin_by(s, map, (atom, side), |sheet| Program::counting_repeats(sheet))
}

/// Compares each rule with the one before it only.
fn pin_comparing_neighbours(s: &[u8], map: &mut [u8], atom: u64, side: u64) -> u64 {
    pin_by(s, map, (atom, side), |sheet| {
        let mut program = Program::counting_repeats(sheet);
        program.different.dedup();
        program
    })
}

/// Pins with other rules counted as different.
fn pin_by(s: &[u8], map: &mut [u8], (atom, side): (u64, u64), program: fn(&Sheet) -> Program) -> u64 {
    let mut after = map.to_vec();
    let code = plain::desk_pin(s, &mut after, atom, side);
    let Ok(sheet) = read_sheet(s) else { return code };
    if code >> 40 < 32 || map[0] == 3 {
        return code;
    }
    let mut held = map[..sheet.atoms].to_vec();
    let pinned = hold(&mut held, (atom as usize, side as u8)).and_then(|()| close(&program(&sheet), &mut held));
    handed(pinned.map(|()| held), &mut map[..sheet.atoms])
}

fn handed(after: Result<Vec<u8>, BothWays>, lent: &mut [u8]) -> u64 {
    match after {
        Ok(map) => lent.copy_from_slice(&map),
        Err(BothWays) => lent.fill(3),
    }
    closed(lent)
}

fn open_taking<const LIKE: usize>(s: &[u8], map: &mut [u8]) -> u64 {
    let code = plain::desk_open(s, map);
    forced_further(s, map, code, is_like::<LIKE>)
}

fn pin_taking<const LIKE: usize>(s: &[u8], map: &mut [u8], atom: u64, side: u64) -> u64 {
    let code = plain::desk_pin(s, map, atom, side);
    forced_further(s, map, code, is_like::<LIKE>)
}

fn is_like<const LIKE: usize>(one: &Rule, other: &Rule) -> bool {
    let first = |rule: &Rule| rule.numbers().into_iter().take(16).collect::<Vec<_>>();
    if LIKE == FIRST_NUMBERS { first(one) == first(other) } else { Near::between(one, other) == Some(Near::ALL[LIKE]) }
}

/// Goes on forcing from a closed map with rule 2 as if such rules were the
/// same as well.
fn forced_further(s: &[u8], map: &mut [u8], code: u64, same: impl Fn(&Rule, &Rule) -> bool) -> u64 {
    let Ok(sheet) = read_sheet(s) else { return code };
    if code >> 40 != 33 {
        return code;
    }
    let mut held = map[..sheet.atoms].to_vec();
    let mut forced = || {
        loop {
            let further = forced_by_alike(&sheet, &held, &same);
            if further.is_empty() {
                return Ok(held.clone());
            }
            further.into_iter().try_for_each(|one| hold(&mut held, one))?;
            close(&Program::of(&sheet), &mut held)?;
        }
    };
    handed(forced(), &mut map[..sheet.atoms])
}

/// What the first reason of an atom forces where all its reasons are alike.
fn forced_by_alike(sheet: &Sheet, map: &[u8], same: impl Fn(&Rule, &Rule) -> bool) -> Vec<(usize, u8)> {
    for atom in (1..=sheet.atoms).filter(|&atom| map[atom - 1] == 1) {
        let reasons = sheet.rules.iter().filter(|rule| rule.heads.contains(&atom) && meets(rule, reach(rule, map)));
        let reasons = reasons.collect::<Vec<_>>();
        let Some(first) = reasons.first() else { continue };
        if reasons.iter().all(|rule| rule == first || same(rule, first)) {
            let needed = |literal: &&Literal| {
                map[literal.atom - 1] == 0 && !meets(first, reach(first, map) - u64::from(literal.weight))
            };
            let positive = first.positive.iter().filter(needed).map(|literal| (literal.atom, 1));
            let negative = first.negative.iter().filter(needed).map(|literal| (literal.atom, 2));
            let forced = positive.chain(negative).collect::<Vec<_>>();
            if !forced.is_empty() {
                return forced;
            }
        }
    }
    Vec::new()
}

/// The sheet with each of its rules once, where it is a sheet.
fn without_repeats(s: &[u8]) -> Vec<u8> {
    match read_sheet(s) {
        Ok(sheet) => Sheet { rules: different(&sheet.rules), ..sheet }.bytes(),
        Err(_) => s.to_vec(),
    }
}

fn check_without_repeats(s: &[u8]) -> u64 {
    plain::desk_check(&without_repeats(s))
}

fn margin_without_repeats(s: &[u8], map: &[u8], rule: u64) -> u64 {
    plain::desk_margin(&without_repeats(s), map, rule)
}

fn rule_without_repeats(s: &[u8], rule: u64, part: u64, index: u64) -> u64 {
    plain::desk_rule(&without_repeats(s), rule, part, index)
}

fn refused(number: u8, place: usize) -> u64 {
    Answer::Refused(Refusal { number, place }).code()
}

fn atoms_of(s: &[u8]) -> usize {
    read_sheet(s).map_or(0, |sheet| sheet.atoms)
}

fn fill_atoms(s: &[u8], map: &mut [u8], byte: u8) {
    map[..atoms_of(s)].fill(byte);
}

fn closed(map: &[u8]) -> u64 {
    if map.first() == Some(&3) {
        return Answer::Contradiction.code();
    }
    Answer::Closed { undecided: map.iter().filter(|&&side| side == 0).count() }.code()
}

fn without_compute(sheet: Sheet) -> Vec<u8> {
    Sheet { compute_in: vec![], compute_out: vec![], ..sheet }.bytes()
}

/// Whether every rule whose body holds has its head in, and the compute
/// lists are kept.
fn satisfies(sheet: &Sheet, map: &[u8]) -> bool {
    let is_in = |atom: usize| map[atom - 1] == 1;
    let weight = |rule: &Rule| -> u32 {
        let positive = rule.positive.iter().filter(|literal| is_in(literal.atom));
        let negative = rule.negative.iter().filter(|literal| !is_in(literal.atom));
        positive.chain(negative).map(|literal| literal.weight).sum()
    };
    let kept = |rule: &Rule| rule.is_choice() || weight(rule) < rule.need || is_in(rule.heads[0]);
    sheet.rules.iter().all(kept)
        && sheet.compute_in.iter().all(|&atom| is_in(atom))
        && !sheet.compute_out.iter().any(|&atom| is_in(atom))
}
