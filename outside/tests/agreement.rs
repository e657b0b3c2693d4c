//! Holds the desk under test (the archive where it is linked, else plain)
//! against the plain solver and the paper's definitions.

use outside::agreement::{SUITES, hold};
use outside::desk::Desk;
use std::thread;
use std::time::Instant;

/// As much stack as the first thread of a program has on most machines.
const STACK: usize = 8 << 20;

fn hold_suite(name: &'static str) {
    let held = thread::Builder::new().stack_size(STACK).spawn(move || held_on_this_thread(name));
    if let Err(message) = held.expect("a thread can be had").join().expect("the thread ends well") {
        panic!("{message}");
    }
}

fn held_on_this_thread(name: &str) -> Result<(), String> {
    let suite = SUITES.iter().find(|suite| suite.name == name).expect("a suite has this name");
    let start = Instant::now();
    let seeds = hold(&Desk::SUBJECT, suite).map_err(|found| found.to_string())?;
    println!("{}: {name}: {seeds} seeds in {:.1?}", Desk::SUBJECT.name, start.elapsed());
    Ok(())
}

macro_rules! suite_tests {
    ($($test:ident: $name:literal,)*) => {
        $(#[test] fn $test() { hold_suite($name); })*

        #[test]
        fn every_suite_is_held() {
            let held = [$($name),*];
            assert!(SUITES.iter().all(|suite| held.contains(&suite.name)));
        }
    };
}

suite_tests! {
    large: "large",
    short_strings: "short strings",
    any_bytes: "any bytes",
    well_formed: "well formed",
    damaged: "damaged",
    long_numbers: "long numbers",
    one_byte: "one byte",
    bounds: "bounds",
    limits: "limits",
    subsets: "subsets",
    closed_maps: "closed maps",
    shuffled: "shuffled",
    pin_walks: "pin walks",
    repeats: "repeats",
}
