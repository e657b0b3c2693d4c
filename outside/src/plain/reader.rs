//! From bytes to a sheet, or the first refusal in reading order.

use super::numbers::read_number;
use crate::answer::Refusal;
use crate::sheet::{Kind, Literal, MOST_ATOMS, MOST_BYTES, MOST_RULES, MOST_WEIGHT, Rule, Sheet};

/// The sheet that these bytes say. Refusal 9 is tested first; then the
/// numbers in order, each by 1, 2 or 15 and then by its value. A bound's
/// value is tested where its rule ends.
pub fn read_sheet(bytes: &[u8]) -> Result<Sheet, Refusal> {
    if bytes.len() > MOST_BYTES {
        return Err(Refusal { number: 9, place: MOST_BYTES });
    }
    let mut reader = Reader { bytes, place: 0, atoms: 0 };
    reader.edition()?;
    reader.atoms = reader.count(0, MOST_ATOMS)?;
    let rule_count = reader.count(0, MOST_RULES)?;
    let mut rules = Vec::with_capacity(rule_count);
    for _ in 0..rule_count {
        rules.push(reader.rule()?);
    }
    let compute_in = reader.list(0)?;
    let compute_out = reader.list(0)?;
    reader.end()?;
    Ok(Sheet { atoms: reader.atoms, rules, compute_in, compute_out })
}

/// A place on the sheet, and the atom count once it is known.
struct Reader<'a> {
    bytes: &'a [u8],
    place: usize,
    atoms: usize,
}

impl Reader<'_> {
    /// The next number and the place of its first byte.
    fn number(&mut self) -> Result<(u32, usize), Refusal> {
        let first = self.place;
        let (value, after) = read_number(self.bytes, first)?;
        self.place = after;
        Ok((value, first))
    }

    fn edition(&mut self) -> Result<(), Refusal> {
        match self.number()? {
            (1, _) => Ok(()),
            (_, place) => Err(Refusal { number: 3, place }),
        }
    }

    /// A count or weight from `least` to `most`.
    fn count(&mut self, least: usize, most: usize) -> Result<usize, Refusal> {
        let (value, place) = self.number()?;
        let value = value as usize;
        if (least..=most).contains(&value) { Ok(value) } else { Err(Refusal { number: 4, place }) }
    }

    /// An atom and its place.
    fn atom(&mut self) -> Result<(usize, usize), Refusal> {
        let (value, place) = self.number()?;
        let atom = value as usize;
        if (1..=self.atoms).contains(&atom) { Ok((atom, place)) } else { Err(Refusal { number: 6, place }) }
    }

    /// A count from `least` to n and then so many atoms, strictly increasing.
    fn list(&mut self, least: usize) -> Result<Vec<usize>, Refusal> {
        let count = self.count(least, self.atoms)?;
        let mut atoms = Vec::with_capacity(count);
        for _ in 0..count {
            let (atom, place) = self.atom()?;
            if atoms.last().is_some_and(|&last| last >= atom) {
                return Err(Refusal { number: 7, place });
            }
            atoms.push(atom);
        }
        Ok(atoms)
    }

    fn rule(&mut self) -> Result<Rule, Refusal> {
        let (number, place) = self.number()?;
        let kind = Kind::of_number(number).ok_or(Refusal { number: 5, place })?;
        let heads = match kind {
            Kind::Choice => self.list(1)?,
            Kind::Basic | Kind::Constraint | Kind::Weight => vec![self.atom()?.0],
        };
        let bound = match kind {
            Kind::Constraint | Kind::Weight => Some(self.number()?),
            Kind::Basic | Kind::Choice => None,
        };
        let positive = self.list(0)?;
        let negative = self.list(0)?;
        let positive = self.weighted(kind, positive)?;
        let negative = self.weighted(kind, negative)?;
        let need = match bound {
            Some((bound, place)) if u64::from(bound) > weight_of_all(&positive, &negative) => {
                return Err(Refusal { number: 16, place });
            }
            Some((bound, _)) => bound,
            None => (positive.len() + negative.len()) as u32,
        };
        Ok(Rule { kind, heads, need, positive, negative })
    }

    /// The atoms with their weights, which only a weight rule writes down.
    fn weighted(&mut self, kind: Kind, atoms: Vec<usize>) -> Result<Vec<Literal>, Refusal> {
        let mut literals = Vec::with_capacity(atoms.len());
        for atom in atoms {
            let weight = match kind {
                Kind::Weight => self.count(0, MOST_WEIGHT as usize)? as u32,
                Kind::Basic | Kind::Constraint | Kind::Choice => 1,
            };
            literals.push(Literal { atom, weight });
        }
        Ok(literals)
    }

    fn end(&self) -> Result<(), Refusal> {
        if self.place == self.bytes.len() { Ok(()) } else { Err(Refusal { number: 8, place: self.place }) }
    }
}

fn weight_of_all(positive: &[Literal], negative: &[Literal]) -> u64 {
    let mut weight = 0;
    for literal in positive.iter().chain(negative) {
        weight += u64::from(literal.weight);
    }
    weight
}
