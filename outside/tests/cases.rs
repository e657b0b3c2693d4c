//! The paper's cases on the plain solver, and on the archive where it is
//! linked; and the plain solver against the paper's definitions.

use outside::agreement::{SUITES, hold_seeds};
use outside::cases;
use outside::desk::Desk;
use outside::draw::Draw;
use outside::generator;
use outside::plain::forcing::Program;
use outside::plain::search::first_model_within;
use outside::repeats;

#[test]
fn plain_answers_every_case() {
    if let Err(found) = cases::hold_all(&Desk::PLAIN) {
        panic!("{found}");
    }
}

#[cfg(feature = "archive")]
#[test]
fn the_archive_answers_every_case() {
    if let Err(found) = cases::hold_all(&Desk::ARCHIVE) {
        panic!("{found}");
    }
}

#[test]
fn plain_agrees_with_the_definitions() {
    for name in ["subsets", "closed maps", "shuffled", "repeats"] {
        let suite = SUITES.iter().find(|suite| suite.name == name).expect("a suite has this name");
        if let Err(found) = hold_seeds(&Desk::PLAIN, suite, 0..600) {
            panic!("{found}");
        }
    }
}

#[test]
fn the_first_model_is_the_same_whether_repeats_count_or_not() {
    let mut found = [0, 0];
    for seed in 0..3000 {
        let mut draw = Draw::new("first model", seed);
        let size = generator::size(&mut draw);
        let sheet = repeats::sheet(&mut draw, size);
        let sheet = repeats::same_rules(&mut draw, &sheet);
        let (as_they_stand, each_once) = (Program::counting_repeats(&sheet), Program::of(&sheet));
        let models = [&as_they_stand, &each_once].map(|program| first_model_within(program, 1000));
        if let [Ok(one), Ok(other)] = models {
            assert_eq!(one, other, "seed {seed}\n{sheet}");
            found[usize::from(one.is_some())] += usize::from(each_once.different.len() < sheet.rules.len());
        }
    }
    assert!(found.into_iter().all(|times| times > 200), "{found:?} without and with a model");
}
