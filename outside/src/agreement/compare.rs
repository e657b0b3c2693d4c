//! One call, made on a desk and compared.

use crate::answer::{Answer, in_words};
use crate::desk::{After, Call, Desk};
use crate::plain::forcing::Program;
use crate::plain::reader::read_sheet;
use crate::plain::search::first_model_within;
use std::fmt;

/// Sheets with more rules are printed as bytes only.
const MOST_RULES_IN_WORDS: usize = 40;

/// What two desks disagree on. The message names everything that is needed
/// to see it again.
#[derive(Clone, Debug)]
pub struct Disagreement {
    pub what: String,
}

impl fmt::Display for Disagreement {
    fn fmt(&self, to: &mut fmt::Formatter<'_>) -> fmt::Result {
        self.what.fmt(to)
    }
}

/// A desk with a sheet to call it on.
pub struct Table<'a> {
    pub desk: &'a Desk,
    pub sheet: &'a [u8],
}

impl Table<'_> {
    /// Makes a call on the desk and on the plain solver: the answer and every
    /// byte must be equal. Hands back what both left.
    pub fn same(&self, call: Call, map: &[u8]) -> Result<After, Disagreement> {
        let wanted = Desk::PLAIN.call(call, self.sheet, map).expect("plain writes only what it is lent");
        self.untouched_past_atoms(call, map, &wanted)?;
        self.answers(call, map, &wanted)?;
        Ok(wanted)
    }

    /// Makes a call on the desk: the answer and every byte must be as wanted.
    pub fn answers(&self, call: Call, map: &[u8], wanted: &After) -> Result<(), Disagreement> {
        let found = self.made(call, map)?;
        if found == *wanted {
            return Ok(());
        }
        let what = format!(
            "wanted {}, map {}\nfound  {}, map {}",
            in_words(wanted.code),
            hex(&wanted.map),
            in_words(found.code),
            hex(&found.map)
        );
        Err(self.disagreement(call, map, &what))
    }

    /// Makes a call on the desk alone, with guard bytes looked at.
    pub fn made(&self, call: Call, map: &[u8]) -> Result<After, Disagreement> {
        self.desk.call(call, self.sheet, map).map_err(|trespass| self.disagreement(call, map, trespass.0))
    }

    /// A disagreement about a call on this table.
    pub fn disagreement(&self, call: Call, map: &[u8], what: &str) -> Disagreement {
        let desk = self.desk.name;
        let rules = match read_sheet(self.sheet) {
            Ok(sheet) if sheet.rules.len() <= MOST_RULES_IN_WORDS => format!("\n{sheet}"),
            _ => String::new(),
        };
        let what = format!("{desk}: {call:?}\n{what}\nsheet  {}\nmap    {}{rules}", hex(self.sheet), hex(map));
        Disagreement { what }
    }

    /// Bytes past the atom count, and after a refusal all bytes, are as they
    /// were. Holds of what is wanted, and so of what is found.
    fn untouched_past_atoms(&self, call: Call, map: &[u8], after: &After) -> Result<(), Disagreement> {
        let refused = matches!(Answer::of_code(after.code), Some(Answer::Refused(_)));
        let kept_from = if refused { 0 } else { read_sheet(self.sheet).map_or(0, |sheet| sheet.atoms) };
        let kept = |bytes: &[u8]| bytes.get(kept_from..).map(<[u8]>::to_vec);
        if kept(map) == kept(&after.map) {
            return Ok(());
        }
        Err(self.disagreement(call, map, "plain changed a byte that is not its own"))
    }

    /// Whether a search on this sheet is short enough for a test, even one
    /// that counts repeats.
    pub fn solves_soon(&self) -> bool {
        let Ok(sheet) = read_sheet(self.sheet) else { return true };
        let trials = 600 + 400_000 / sheet.size() as u64;
        first_model_within(&Program::counting_repeats(&sheet), trials).is_ok()
    }
}

/// Bytes as two digits each.
pub fn hex(bytes: &[u8]) -> String {
    if bytes.is_empty() {
        return "(no bytes)".to_string();
    }
    bytes.iter().map(|byte| format!("{byte:02x}")).collect::<Vec<_>>().join(" ")
}
