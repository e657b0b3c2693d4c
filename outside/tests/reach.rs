//! The suites meet every answer that each call can give, and often; and the
//! suite of repeats meets what it is there for.

use outside::agreement::{SUITES, hold_seeds};
use outside::answer::{Answer, SHEET_REFUSALS};
use outside::desk::Desk;
use outside::for_c;
use outside::plain;
use outside::plain::forcing::{BothWays, Program, close, hold};
use outside::plain::reader::read_sheet;
use outside::plain::search::opened;
use outside::repeats::{Near, different};
use outside::sheet::Sheet;
use std::collections::BTreeMap;
use std::sync::Mutex;

/// How often each call gave each top.
static MET: Mutex<BTreeMap<(&str, u64), u64>> = Mutex::new(BTreeMap::new());

fn noted(call: &'static str, code: u64) -> u64 {
    assert!(Answer::of_code(code).is_some(), "{call} answers {code:#x}");
    *MET.lock().expect("no test fails while it holds this").entry((call, code >> 40)).or_default() += 1;
    code
}

const NOTING: Desk = Desk {
    name: "noting",
    check: for_c!(check check),
    open: for_c!(open open),
    pin: for_c!(pin pin),
    solve: for_c!(solve solve),
    test: for_c!(test test),
    margin: for_c!(margin margin),
    rule: for_c!(rule rule),
};

fn check(s: &[u8]) -> u64 {
    noted("check", plain::desk_check(s))
}

fn open(s: &[u8], map: &mut [u8]) -> u64 {
    noted("open", plain::desk_open(s, map))
}

fn pin(s: &[u8], map: &mut [u8], atom: u64, side: u64) -> u64 {
    noted("pin", plain::desk_pin(s, map, atom, side))
}

fn solve(s: &[u8], map: &mut [u8]) -> u64 {
    noted("solve", plain::desk_solve(s, map))
}

fn test(s: &[u8], map: &[u8]) -> u64 {
    noted("test", plain::desk_test(s, map))
}

fn margin(s: &[u8], map: &[u8], rule: u64) -> u64 {
    noted("margin", plain::desk_margin(s, map, rule))
}

fn rule(s: &[u8], rule: u64, part: u64, index: u64) -> u64 {
    noted("rule", plain::desk_rule(s, rule, part, index))
}

#[test]
fn every_answer_of_every_call_is_met() {
    for (name, seeds) in [("any bytes", 4000), ("well formed", 4000), ("damaged", 12_000)] {
        let suite = SUITES.iter().find(|suite| suite.name == name).expect("a suite has this name");
        hold_seeds(&NOTING, suite, 0..seeds).expect("plain agrees with itself");
    }
    let met = MET.lock().expect("no test fails while it holds this");
    let further: [(&str, &[u64]); 7] = [
        ("check", &[32]),
        ("open", &[10, 33, 34]),
        ("pin", &[10, 11, 12, 33, 34]),
        ("solve", &[10, 35, 36]),
        ("test", &[10, 12, 37, 38]),
        ("margin", &[10, 12, 13, 14, 39]),
        ("rule", &[13, 40, 41]),
    ];
    for (call, tops) in further {
        let of_sheet = SHEET_REFUSALS.into_iter().map(|top| (u64::from(top), 5));
        let of_call = tops.iter().map(|&top| (top, 100));
        for (top, least) in of_sheet.chain(of_call) {
            let times = met.get(&(call, top)).copied().unwrap_or(0);
            println!("{call:6} {top:2} {times:6} times");
            assert!(times >= least, "{call} answers with the top {top} only {times} times");
        }
    }
}

/// How often the suite of repeats met each of these.
static REPEATS: Mutex<BTreeMap<String, u64>> = Mutex::new(BTreeMap::new());

const NOTING_REPEATS: Desk =
    Desk { open: for_c!(open open_noting_repeats), pin: for_c!(pin pin_noting_repeats), ..Desk::PLAIN };

fn open_noting_repeats(s: &[u8], map: &mut [u8]) -> u64 {
    let code = plain::desk_open(s, map);
    if let Ok(sheet) = read_sheet(s)
        && code >> 40 >= 32
    {
        note_rules(&sheet);
        note_fuller("open", &opened(&Program::counting_repeats(&sheet)), &map[..sheet.atoms]);
    }
    code
}

fn pin_noting_repeats(s: &[u8], map: &mut [u8], atom: u64, side: u64) -> u64 {
    let before = map.to_vec();
    let code = plain::desk_pin(s, map, atom, side);
    if let Ok(sheet) = read_sheet(s)
        && code >> 40 >= 32
        && before[0] != 3
    {
        let mut old = before[..sheet.atoms].to_vec();
        let pinned = hold(&mut old, (atom as usize, side as u8))
            .and_then(|()| close(&Program::counting_repeats(&sheet), &mut old));
        note_fuller("pin", &pinned.map(|()| old), &map[..sheet.atoms]);
    }
    code
}

fn note(what: String) {
    *REPEATS.lock().expect("no test fails while it holds this").entry(what).or_default() += 1;
}

/// Notes repeats, and near-repeats that can give an atom that the rule can.
fn note_rules(sheet: &Sheet) {
    let rules = different(&sheet.rules);
    if rules.len() < sheet.rules.len() {
        note("a repeat".to_string());
    }
    for (index, one) in rules.iter().enumerate() {
        for other in rules[..index].iter().filter(|other| other.heads.iter().any(|head| one.heads.contains(head))) {
            if let Some(near) = Near::between(one, other) {
                note(format!("{near:?}"));
            }
        }
    }
}

/// Notes a map that is fuller than the old counting gives. It is never less
/// full.
fn note_fuller(call: &str, old: &Result<Vec<u8>, BothWays>, map: &[u8]) {
    match old {
        Err(BothWays) => assert!(map.iter().all(|&side| side == 3), "a contradiction stays one"),
        Ok(old) if old == map => {}
        Ok(_) if map[0] == 3 => note(format!("{call}: a contradiction")),
        Ok(old) => {
            assert!(old.iter().zip(map).all(|(&old, &new)| old == 0 || old == new), "{old:?} grows to {map:?}");
            note(format!("{call}: a fuller map"));
        }
    }
}

#[test]
fn repeats_and_every_near_repeat_and_fuller_maps_are_met() {
    let suite = SUITES.iter().find(|suite| suite.name == "repeats").expect("a suite has this name");
    hold_seeds(&NOTING_REPEATS, suite, 0..1500).expect("plain agrees with itself");
    let met = REPEATS.lock().expect("no test fails while it holds this");
    let nears = Near::ALL.map(|near| (format!("{near:?}"), 100));
    let others = [
        ("a repeat", 1000),
        ("open: a fuller map", 50),
        ("pin: a fuller map", 50),
        ("open: a contradiction", 10),
        ("pin: a contradiction", 10),
    ];
    for (what, least) in nears.into_iter().chain(others.map(|(what, least)| (what.to_string(), least))) {
        let times = met.get(&what).copied().unwrap_or(0);
        println!("{what:22} {times:6} times");
        assert!(times >= least, "{what} only {times} times");
    }
}
